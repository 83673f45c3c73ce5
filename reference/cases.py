"""The cases of the program `trial`.

    python3 reference/cases.py > crates/trial/stdin

Prints the script that trial.py describes, the same each time: chance comes from
a seed. Values and places are from documents 01 and 02, docs/CODES.md and, for a
session's bytes, docs/SESSION.md. Each case changes a base text a little: a good
message of 1 to 5 items, a good head or item, or a right STATUS; first of ATUTAL, then
of BESZED. Those of cover answers change a list of requests and a FEDJEL, of 1 to 6 items
and some of thousands. Those of barred banks have a barred list; elsewhere it is empty, but
for pieces that are refused. The file `written` beside this one follows, cases written by
hand; there the base text is a message of one item in

    h   the line s of its head, and the line j of the message, both with these changes;
        the head alone comes with the number of the kind that the base isn't
    i   the same of its item, which comes with the number of the base's kind

and any message of up to 9,999 bytes in

    u   five digits code table's length: the lines of a session that takes the text
        after pieces that are refused
"""

import datetime
import pathlib
import signal
import sys

sys.dont_write_bytecode = True  # no folder of compiled files beside the sources

import script
import session
import status

KINDS = ATUTAL, BESZED = b"ATUTAL", b"BESZED"  # 02 #101; in the order of their numbers in C
E = 20200310
BANKS = (1203457, 12345676, 16000009, 16000010, 44102036, 61000009, 99001203)
KNOWN = (b"A12345676T001202003010002", b"5990000000009202003010007")
GIVEN = E, BANKS, b"".join(KNOWN), ()
PARTICULARS = b"0 0000000007 0000083000 001000"


# Chance


class Chance:
    """Numbers in a fixed order, whatever the version of Python (Knuth's multiplier)."""

    def __init__(self, seed):
        self.state = seed

    def under(self, n):
        self.state = (self.state * 6364136223846793005 + 1442695040888963407) % 2**64
        return (self.state >> 33) % n

    def of(self, values):
        return values[self.under(len(values))]

    def bytes(self, n):
        """Any bytes, more often those that mean something somewhere."""
        return bytes(self.of((self.under(256), self.of(b"0123 9@A\r\n\x7f\x80\x81\xfb"))) for _ in range(n))


chance = Chance(1)


# Base texts


def head(kind=ATUTAL, date=20200301, debit=20200310):
    text = b"01%s0A12345676T001%08d0001160000091002003045678909%08dMUN" % (kind, date, debit)
    return text + b"Minta \x90p\xa1t\x8b Kft.".ljust(35) + b"m\xa0rciusi munkab\x82r".ljust(70)


def item(k, amount, account):
    text = b"02%06d20200311%010d61000009%-16sDOLGOZO-%04d" % (k, amount, account, k)
    name = b"Kov\xa0cs Anna".ljust(35)
    return text.ljust(74) + name + b"1011 Budapest, F\x8b u. 1.".ljust(35) + name + b"b\x82r".ljust(70)


# Amounts and accounts. Zero accounts are watched (01, closing).
ITEMS = (
    (1000, b"1234567600001238"),
    (250000, b"12345676"),
    (9999999999, b"0" * 16),
    (1, b"0" * 8),
    (77, b"1002003045678909"),
)


def records(n, kind=ATUTAL):
    """The records of a good message of n items; what is good in one kind is here good in both."""
    items = [item(k, *ITEMS[k - 1]) for k in range(1, n + 1)]
    return [head(kind)] + items + [b"03%06d%016d" % (n, sum(amount for amount, _ in ITEMS[:n]))]


def joined(parts):
    return b"".join(part + b"\r\n" for part in parts)


def starts(n):
    """Where each record of a good message of n items starts, and where the message ends."""
    return [0] + [176 + 251 * k for k in range(n + 1)] + [202 + 251 * n]


# Values of fields: (first position, bytes), bad ones and good ones at the edge


def dates(day, *steps):
    """Days before and after a day; a step beyond the calendar's ends is left out."""
    e = datetime.date(day // 10000, day // 100 % 100, day % 100).toordinal()
    days = [e + n for n in steps if 1 <= e + n <= datetime.date.max.toordinal()]
    return [datetime.date.fromordinal(n).isoformat().replace("-", "").encode() for n in days]


NO_DATES = b"20200230 20191301 20190229 21000229 20200010 20200300 00000229".split() + [b"2020031 ", b"2020\r\n10", b" " * 8]
BANK_VALUES = b"16000009 61000009 99001203 16000010 00000000 12345677 01203457".split()
BANK_VALUES += [b"1600000 ", b" 6000009", b"9900120\xff"]
ACCOUNT_VALUES = b"1234567600001238 1234567600001239 0000000000000000 1600000900000000 6100000900000000".split()
ACCOUNT_VALUES += [value.ljust(16) for value in (b"12345676", b"12345677", b"123456760", b"00000000", b"1234567", b"")]
ACCOUNT_VALUES += [b"        12345676", b"12345676       0", b"123456760000123\r", b"12345676" + bytes(8)]
# 02 #102: the halves of an account: digits good and bad by annex 6, zeros, spaces, digits and spaces, other bytes; each first with each last.
FIRST_EIGHT = [b"12345676", b"12345677", b"00000000", b" " * 8, b"1234567 ", b" 2345676", b"1234 676", b"1234567:", b"/2345676", b"123\xff5676"]
LAST_EIGHT = [b"12345676", b"12345677", b"12345675", b"00000000", b" " * 8, b"0       ", b"       0", b"1234567 ", b" 2345676", b"1234567:"]
HALVES = [first + last for first in FIRST_EIGHT for last in LAST_EIGHT + [b"\x002345676", b"   \r\n   "]]
LETTERS = bytes.fromhex("81828A8B9094999AA0A1A2A3B5D6E0E9EBFB")
BAD_LETTERS = b"\x00\x1f\x7f\x80\x83\x8c\x9b\xa4\xb6\xd5\xe1\xea\xff\r\n\t"


def placed(first, values):
    return [(first, value) for value in values]


def letters(first, last):
    """A letter at the first or the last place of a text field, good ones and bad ones."""
    return [(place, bytes([letter])) for letter in BAD_LETTERS + LETTERS + b" ~" for place in (first, last)]


HEAD_VALUES = [
    placed(1, [b"02", b"03", b"  ", b"0\xff", b"10", b"\r\n"]),
    placed(3, [b"atutal", b"STATUS", b"ATUTA ", b"\x00TUTAL", b"BESZED"]),
    placed(9, [b"1", b"9", b"@", b"/", b":", b"?", b"A", b" ", b"\x00", b"X"]),
    placed(10, b"A12345677T001 A12345676t001 a12345676T001 A12345676T999 A16000009T000 A61000009T123".split()),
    placed(10, b"5990000000009 5990000000008 0000000000000 E123456780000".split() + [b" " * 13, b"599000000000\xff"]),
    placed(10, [b"A12345676    ", b"A12345676T00 ", b"A1234567 T001", b"\x80\xff\r\n\x00\x7f\x1f\x20\x7e\x81\x82\xfb\xa0"]),
    placed(10, KNOWN),
    placed(23, dates(E, -400, -16, -15, -14, -11, -10, -9, -1, 0, 1, 366) + NO_DATES),
    placed(31, [b"0000", b"9999", b"0002", b"000 ", b"    ", b"-001", b"\r\n01", b"00\x7f1", b"000\xff"]),
    placed(35, BANK_VALUES),
    placed(43, ACCOUNT_VALUES),
    placed(59, dates(E, -10, -9, -8, -1, 0, 1, 2, 3, 366) + NO_DATES),
    placed(67, [b"BEB", b"VIL", b"NGY", b"CST", b"QQQ", b"mun", b"MU ", b"   ", b"000", b"BEC", b"VIM"]),
    placed(70, [b" " * 35, b"0" * 35, b" " * 34 + b"x", b" " * 34 + b"\xff"]),
    letters(70, 104),
    letters(105, 174),
]
ITEM_VALUES = [
    placed(1, [b"01", b"00", b"04", b"2 ", b"  ", b"\r\n", b"03"]),
    placed(3, b"000000 000001 000002 000003 000005 999999".split() + [b"00000 ", b"     1", b"00000\xff", b"\r\n0001"]),
    placed(9, [b"        ", b"\x00\r\n\xff\x7f\x80  ", b"20200230"]),
    placed(17, [b"0000000000", b"0000000001", b"9999999999", b"000000000 ", b"          ", b"+000000001", b"00000000\r\n"]),
    placed(27, BANK_VALUES),
    placed(35, ACCOUNT_VALUES),
    placed(51, [b" " * 24, b"0" * 24, b" 0" * 12, b"0" * 23 + b"1", b" " * 23 + b"\xff"]),
    placed(145, [b" " * 35, b"0" * 35, b"0 " * 17 + b"0", b" " * 34 + b"x", b"0" * 34 + b"\x7f"]),
    letters(51, 74),
    letters(75, 109),
    letters(110, 144),
    letters(145, 179),
    letters(180, 249),
]
# Values that count in a BESZED (002 2.1.1 and 2.3.1); those of ATUTAL come beside them, but for most letters.
BESZED_HEAD_VALUES = [
    *(values for values in HEAD_VALUES if len(values) < 40),
    placed(3, [b"ATUTAL", b"BESZEd", b"bESZED", b"BESZE ", b"\xffESZED"]),
    placed(9, [b"@", b"5"]),
    placed(10, [b"E12345676    ", b"E16000009    ", b"E00000000    ", b"E12345677    ", b"E12345676   ", b"E12345676   0", b" E12345676   "]),
    placed(10, [b"e12345676    ", b"B12345676    ", b"E1234567     ", b"E12345676T001", b"A12345676    ", b"E1234567600  ", b"E            "]),
    placed(59, [b" " * 8, b"0" * 8, b"20190229", b"\r\n\x00\x7f\x80\xff\r\n", b"20200309", b"99991231"]),
    placed(70, [b"0" * 35, b"0 " * 17 + b"0", b"0" * 34 + b" ", b"0" * 34 + b"1", b" " * 34 + b"\x80"]),
    placed(70, [b"\x80", b"\x81"]) + placed(174, [b"\x7f", b"\xfb"]),
]
BESZED_ITEM_VALUES = [
    *(values for values in ITEM_VALUES if len(values) < 40),
    placed(9, dates(E, -366, -1, 0, 1, 4, 5, 8, 9, 10) + NO_DATES),
    placed(9, dates(E, 11, 12, 13, 14, 366) + [b"99991231", b"00010101", b"\xff" * 8, b"0" * 8]),
    placed(51, [b"\x80", b"\x81"]) + placed(249, [b"\x7f", b"\xfb"]),
]
VALUES = {ATUTAL: (HEAD_VALUES, ITEM_VALUES), BESZED: (BESZED_HEAD_VALUES, BESZED_ITEM_VALUES)}


def foot_values(n):
    total = sum(amount for amount, _ in ITEMS[:n])
    return [
        placed(1, [b"02", b"04", b"3 "]),
        placed(3, [b"%06d" % (n + 1), b"%06d" % (n - 1), b"000000", b"%5d " % n, b"%6d" % n, b"00000\xa0"]),
        placed(9, [b"%016d" % (total + 1), b"%016d" % (total - 1), b"0" * 16, b"9" * 16]),
        placed(9, [b"%16d" % total, b"%015d\x82" % total]),
    ]


def at_chance(fields):
    """A field's value; letters have many, so the field is drawn first."""
    first, value = chance.of(chance.of(fields))
    return first, value


# Changes of a base text: (place, how many bytes go, bytes that come)


def change(start, value):
    """The value in its field, in the record that starts there."""
    first, new = value
    return start + first - 1, len(new), new


def field_change(n, kind=ATUTAL):
    """Any field of any record, head, item or foot, of a message of n items."""
    record = chance.of((0, 0, n + 1, *range(1, n + 1)))
    head_values, item_values = VALUES[kind]
    fields = head_values if record == 0 else foot_values(n) if record == n + 1 else item_values
    return change(starts(n)[record], at_chance(fields))


def break_changes(n):
    """Every kind of place where a message of n items can break."""
    found = [(starts(n)[-1], 0, new) for new in (b"0", b"\r\n", b"\n", b"03", joined(records(n)))]
    for record, (start, end) in enumerate(zip(starts(n), starts(n)[1:])):
        endings = (b"\n\r", b"\r\r", b"\n\n", b"\r", b"\n", b"", b"\r\n\r\n", b"  ", b"\r ", b" \n")
        found += [(end - 2, 2, new) for new in endings]
        cuts = (start, start + 1, start + 2, (start + end) // 2, end - 3, end - 2, end - 1)
        found += [(cut, 9999, b"") for cut in cuts]  # the message ends here
        found += [(start, 0, b"0"), (end - 3, 1, b""), (start, end - start, b"")]  # a byte more, a byte less, no record
        if 0 < record <= n:
            found += [(start, 0, joined(records(1)[-1:])), (start, 2, b"03")]  # a foot before an item
    return found


def damage(length):
    """A byte or a few: other bytes, fewer, more."""
    place, n = chance.under(length), 1 + chance.under(3)
    gone, come = chance.of(((1, 1), (1, 1), (n, n), (n, 0), (0, n)))
    return place, gone, chance.bytes(come)


def ascending(changes):
    """The changes in order, without those that overlap an earlier one."""
    kept = []
    for place, gone, new in sorted(changes):
        if not kept or kept[-1][0] + kept[-1][1] <= place > kept[-1][0]:
            kept.append((place, gone, new))
    return kept


# Cuts


def cuts(n):
    """Up to six cuts, more often near the edge of a record, or a run of single bytes there; two may be equal."""
    edge = max(0, chance.of(starts(n)) + chance.under(7) - 3)
    if chance.under(20) == 0:
        return list(range(edge, edge + 9))
    near = (chance.of(starts(n)) + chance.under(5) for _ in range(chance.under(4)))
    anywhere = (chance.under(starts(n)[-1]) for _ in range(chance.under(4)))
    return sorted([edge] * chance.under(3) + [*near, *anywhere])


def lengths(places):
    """The lengths of the pieces that these cuts make: that of the last first, which is what is left."""
    return b"0000" + b"".join(b"%04d" % (end - start) for start, end in zip([0, *places], places))


# Lines


def line(letter, rest):
    sys.stdout.buffer.write(letter + b" " + rest + b"\n")


def comment(text):
    line(b"#", text.encode())


def written(changes):
    """The changes after |, nothing where there are none."""
    text = b"".join(b" %04d%04d%s" % (place, gone, new.hex().encode()) for place, gone, new in ascending(changes))
    return b"|" + text if text else b""


def base(parts, endings=True):
    """The lines that make the base text of these records."""
    line(b"M", b"")
    for part in parts:
        line(b"+" if endings else b"-", part)


def message_case(n, changes, table=None):
    """A j line; the table has a byte for each item, or a few more, where nothing else is said."""
    length = n + chance.of((0, 0, 0, 1, 4)) if table is None else table
    line(b"j", b"%05d " % length + lengths(cuts(n)) + written(changes))


def single_case(k, changes, number=0):
    """An s line; the number is that of the kind."""
    line(b"s", b"%010d %010d" % (k, number) + written(changes))


def status_case(length, changes):
    line(b"r", b"%05d" % length + written(changes))


def given(day=E, banks=BANKS, known=KNOWN):
    line(b"E", b"%08d" % day)
    line(b"B", b"".join(b"%010d" % bank for bank in banks))
    line(b"K", b"".join(known))


# Lists and days that are refused, and some that aren't

BAD_BANKS = ((2, 1), (16000009, 16000009), (61000009, 100000000), (0, 61000009, 16000009), (4294967295,))
GOOD_BANKS = ((), (16000009,), (0, 16000009, 61000009), (61000009, 99999999), BANKS)
BAD_KNOWN = ((KNOWN[0][:24],), (*KNOWN, b"0"), (b"x",), (*KNOWN, KNOWN[1][1:]))
GOOD_KNOWN = ((), KNOWN[:1], (b"A12345676T001202003010001",), (b" " + KNOWN[0], KNOWN[1][1:]), KNOWN)
NO_DAYS = (0, 20200230, 20190229, 100000, 20201301)
DAYS = (20200229, 20200301, 20210105, 20000315, 19000310, 10101, 10110, 99991231, 99991225)


# The cases


def begin(n, kind, text):
    """The comment and the base text of cases on a message of n items."""
    comment("%s of %d items: %s" % ("messages" if kind == ATUTAL else "BESZED messages", n, text))
    base(records(n, kind))


def messages_alone(kind=ATUTAL):
    """Every value of every field alone: those of the head and of an item once, in turn over the five lengths."""
    flat = lambda fields: [value for values in fields for value in values]
    head_values, item_values = VALUES[kind]
    for n in range(1, 6):
        begin(n, kind, "good, each value of a field alone")
        message_case(n, [])
        for value in flat(head_values)[n - 1 :: 5]:
            message_case(n, [change(0, value)])
        for value in flat(item_values)[n - 1 :: 5]:
            message_case(n, [change(starts(n)[1 + chance.under(n)], value)])
        for value in flat(foot_values(n)):
            message_case(n, [change(starts(n)[n + 1], value)])


def messages_broken(kind, *sizes):
    for n in sizes:
        begin(n, kind, "breaks at every kind of place, alone and after another fault")
        for found in break_changes(n):
            message_case(n, [found])
            if chance.under(2):
                message_case(n, [found, field_change(n, kind)], chance.of((n, n, 0, 1)))


# One fault for each code in rank order: the record (0 the head, 2 the second item, -2 the foot) and the value.
RANKED = [
    *((0, value) for value in ((105, b"\x80"), (1, b"02"), (3, b"STATUS"), (9, b"X"), (10, b"A12345677T001"), (10, KNOWN[0]))),
    *((0, value) for value in ((23, b"20200311"), (31, b"000 "), (35, b"12345677"), (43, b"123456760       "))),
    *((0, value) for value in ((59, b"20200309"), (67, b"QQQ"), (70, b" " * 35))),
    *((2, value) for value in ((180, b"\xff"), (1, b"01"), (17, b"000000000 "))),
    *((2, value) for value in ((3, b"00000 "), (3, b"000001"), (17, b"0000000000"), (27, b"00000000"), (35, b"12345677"))),
    *((2, value) for value in ((51, b" " * 24), (145, b"0" * 35))),
    *((-2, value) for value in ((3, b"000004"), (9, b"0" * 16))),
]


# Faults of a BESZED that ATUTAL hasn't, or has otherwise; and a notification date, which has none.
BESZED_RANKED = [
    *((0, value) for value in ((9, b"@"), (10, b"E12345677    "), (59, b"\r\n 0Z\x80\xff0"), (70, b"0" * 35))),
    (2, (9, b"20200321")),
]


def messages_in_pairs(kind, ranked, own):
    """Each two of the faults, one of them an own one; those of an item stand in two items where both are of one."""
    begin(3, kind, "each two faults that have a code")
    at = starts(3)
    for k, (record, value) in enumerate(ranked + own):
        for other, later in (ranked + own)[:k] if k >= len(ranked) else ():
            place = other if other < 1 else chance.of((1, 3, 2))
            message_case(3, [change(at[record], value), change(at[place], later)])


def messages_in_rank(count, kind=ATUTAL):
    for n in range(1, 6):
        begin(n, kind, "two to four faults, the first in rank decides")
        for _ in range(count):
            message_case(n, [field_change(n, kind) for _ in range(2 + chance.under(3))])


def messages_overflowing(kind, *sizes):
    for n in sizes:
        begin(n, kind, "tables of every length around that, the longest and one byte more")
        for length in (*range(n + 2), 10000, 10001):
            message_case(n, [], length)
            message_case(n, [field_change(n, kind)], length)
            message_case(n, [field_change(n, kind), chance.of(break_changes(n))], length)


def messages_damaged(count, kind=ATUTAL):
    for n in range(1, 6):
        begin(n, kind, "random damage, random ends")
        for _ in range(count):
            message_case(n, [damage(starts(n)[-1]) for _ in range(1 + chance.under(4))])
            if chance.under(3) == 0:
                end = chance.under(chance.of((40, starts(n)[-1])))
                message_case(n, [(end, 9999, chance.bytes(chance.under(3)))])


def messages_given():
    """E and lists, wrong ones alone and together: 1, 4, 2, 3 in this order, then 6."""
    base(records(2))
    comment("two items: E and lists, right and wrong")
    for banks in GOOD_BANKS + BAD_BANKS:
        for known in (chance.of(GOOD_KNOWN), chance.of(GOOD_KNOWN), chance.of(BAD_KNOWN)):
            given(chance.of((E, E, E, chance.of(NO_DAYS))), banks, known)
            for length in (2, 1, 10001):
                message_case(2, [], length)
                message_case(2, [field_change(2)], length)
    for known in GOOD_KNOWN + BAD_KNOWN:
        given(known=known)
        message_case(2, [])
        message_case(2, [change(0, (10, chance.of(KNOWN)))])
        message_case(2, [(20, 9999, b"")])
    for day in NO_DAYS:
        given(day)
        message_case(2, [], 10001)
        message_case(2, [], 0)
    given()


def days_changes(day):
    """Dates and debit dates around E, in pairs."""
    debits = dates(day, -1, 0, 1, 9, 10, 11)
    return [[change(0, (23, a)), change(0, (59, b))] for a in dates(day, -16, -15, -11, -10, -1, 0, 1) for b in debits]


def messages_by_days():
    base(records(1))
    for day in (E, *DAYS):
        comment("one item: E %08d, dates around it" % day)
        given(day)
        for changes in days_changes(day):
            if chance.under(2):
                message_case(1, changes)
    given()


# Each day of the week as E, then days near the end of a year and of the calendar.
DUE_DAYS = (*range(20200309, 20200316), 20200229, 20201221, 10101, 99991220, 99991221, 99991222, 99991231)


def messages_by_due_dates():
    """E+8 is ten to twelve days after E, or beyond the calendar: days around E and around it, five in a message, and alone."""
    begin(5, BESZED, "each day of the week as E, due dates around it and around E+8")
    for day in DUE_DAYS:
        line(b"E", b"%08d" % day)
        for steps in ((-1, 0, 1, 4, 5), (9, 10, 11, 12, 13)):
            due = [change(start, (9, value)) for start, value in zip(starts(5)[1:], dates(day, *steps))]
            message_case(5, [change(0, (23, b"%08d" % day)), *due], 5)
    comment("a single BESZED item: each day of the week as E, due dates around it and around E+8")
    base([records(1, BESZED)[1]], endings=False)
    for day in DUE_DAYS:
        line(b"E", b"%08d" % day)
        for value in dates(day, -1, 0, 9, 10, 11, 12, 13):
            single_case(1, [change(0, (9, value))], 1)
    given()


def replies_by_particulars():
    base(records(3))
    comment("three items: particulars and outputs, right and wrong, the references' refusals before")
    whole = 104 + 65 * 3
    for duplicate in (b"0", b"@", b"1", b"9", b"A", b" ", b"\xff"):
        number, time = chance.of((0, 7, 9999)), chance.of((0, 83000, 235959))
        particulars_case(duplicate, number, time, chance.of((whole, 1000)))
    for number in (0, 9999, 10000, 99999, 4294967295):
        particulars_case(b"0", number, 83000, whole)
    for time in (0, 59, 60, 5959, 6000, 5960, 235959, 235960, 236000, 240000, 999999, 1000000, 4294967295):
        particulars_case(b"@", 7, time, whole)
    for room in (0, 1, 55, 56, 103, 104, 105, 168, whole - 1, whole, whole + 1, 2000):
        particulars_case(b"0", 7, 83000, room)
    line(b"P", PARTICULARS)


def particulars_case(duplicate, number, time, room):
    """A P line and a few messages: good, with a T code, with any fault, broken or too short, with a byte in 10-34."""
    line(b"P", duplicate + b" %010d %010d %06d" % (number, time, room))
    message_case(3, [])
    message_case(3, [change(starts(3)[1 + chance.under(3)], at_chance(ITEM_VALUES[4:8]))])
    message_case(3, [field_change(3)], chance.of((0, 2, 3)))
    message_case(3, [(chance.of((33, 34, 175, 176, 500)), 9999, b"")])
    message_case(3, [change(0, (10 + chance.under(25), chance.of((b"\x1f", b"\x7f", b"\x80", b"\r", b"~", b" "))))])


def singles(count, kind=ATUTAL):
    number = KINDS.index(kind)
    for record, fields, name in zip(records(1, kind), VALUES[kind], ("head", "item")):
        base([record], endings=False)
        of = "" if kind == ATUTAL else "BESZED "
        comment("a single %s%s: each value, places, two and three faults, damage, other lengths" % (of, name))
        for values in fields:
            for value in values if len(values) < 40 else values[chance.under(2) :: 2]:
                single_case(1, [change(0, value)], number)
        for k in (0, 1, 2, 999999, 1000000, 2147483648, 4294967294, 4294967295):
            single_case(k, [], number)
            single_case(k, [change(0, (3, b"%06d" % (k % 1000000)))] if name == "item" else [], number)
        for _ in range(count):
            single_case(1, [change(0, at_chance(fields)) for _ in range(2 + chance.under(2))], number)
        for _ in range(count // 2):
            single_case(1, [damage(len(record))], number)
        for text in (b"", b"0", b"\r\n"):
            single_case(1, [(len(record), 0, text)], number)
            single_case(1, [(len(record) - 1, 1, text)], number)
        single_case(1, [(0, 9999, b"")], number)


def halves(kind):
    """Every pair of halves of an account: in items, five to a message, in the head of a message, and in single records."""
    begin(5, kind, "each first half of an item's account with each last half")
    for k in range(0, len(HALVES), 5):
        message_case(5, [change(start, (35, value)) for start, value in zip(starts(5)[1:], HALVES[k:])])
    begin(1, kind, "each first half of the head's account with each last half")
    for value in HALVES:
        message_case(1, [change(0, (43, value))])
    for record, first in zip(records(1, kind), (43, 35)):
        comment("a single record of %s: each first half of its account with each last half" % kind.decode())
        base([record], endings=False)
        for value in HALVES:
            single_case(1, [change(0, (first, value))], KINDS.index(kind))


# Numbers of a kind: that of each, the next one, and some of which a part is 1.
NUMBERS = (0, 1, 2, 257, 2147483649, 4294967295)


def singles_of_any_kind():
    """1 is BESZED, any other number ATUTAL; of a head the number isn't looked at."""
    comment("a single item: the number of each kind, and others")
    base([records(1)[1]], endings=False)
    for number in NUMBERS:
        for value in ((9, b"20200309"), (9, b"2020031 "), (9, b"20200320"), (17, b"0000000000"), (51, b"\x80"), (1, b"01")):
            single_case(1, [change(0, value)], number)
    comment("a single head of each kind, with any number")
    for kind in KINDS:
        base([records(1, kind)[0]], endings=False)
        for value in ((1, b"01"), (3, b"BESZED"), (3, b"ATUTAL"), (9, b"@"), (10, b"E12345676    "), (59, b" " * 8), (70, b"0" * 35)):
            for number in (0, 1, chance.of(NUMBERS[2:])):
                single_case(chance.under(3), [change(0, value)], number)


def singles_given():
    comment("a single item, then a single head: E and lists, right and wrong, another length")
    for record in (records(1)[1], records(1)[0]):
        base([record], endings=False)
        for banks in GOOD_BANKS + BAD_BANKS:
            given(chance.of((E, E, *NO_DAYS[:2])), banks, chance.of(GOOD_KNOWN + BAD_KNOWN))
            single_case(1, [])
            single_case(1, [(9, 1, b"")])
        for known in GOOD_KNOWN + BAD_KNOWN:
            given(known=known)
            single_case(1, [])
            single_case(1, [change(0, (10, chance.of(KNOWN)))])
    for day in (E, *DAYS):
        given(day)
        for changes in days_changes(day):
            if chance.under(2):
                single_case(1, changes)
    given()


# STATUS messages

# Places in the records (01 "Records"): marks, duplicate code, 10-34, digits, codes.
STATUS_HEAD = [
    placed(1, [b"02", b"00", b"1 "]),
    placed(3, [b"ATUTAL", b"STATUs", b"STATU\xff"]),
    placed(9, [b"@", b"1", b"A", b" ", b"/"]),
    placed(10, [b"\x1f", b"\x7f", b"\x80", b"~", b" ", b"\r"]),
    placed(34, [b"\x1f", b"\x7f", b"\xff", b"~", b" ", b"\n"]),
    placed(35, [b"00000000", b"99999999", b"2020031 ", b"/0200310", b":0200310"]),
    placed(43, [b"0000", b"9999", b"000 ", b"\xff000"]),
    placed(47, [b"000000", b"999999", b"08300 ", b"x83000"]),
    placed(53, [b"00", b"01", b"26", b"99", b"0 ", b" 0", b"a0"]),
]
STATUS_REFERENCE = [
    placed(1, [b"01", b"03", b"2 ", b"\r\n"]),
    placed(3, [b"000000", b"000001", b"000002", b"000003", b"00000 ", b"     1", b"100001"]),
    placed(9, [b"00", b"01", b"77", b"99", b"0 ", b" 0", b"/0", b"0:"]),
    placed(11, [b"0", b"\x00\xff\r\n", b"\x80" * 53]),
    placed(63, [b"\n", b"\xff"]),
]
STATUS_FOOT = [
    placed(1, [b"02", b"04", b"3 "]),
    placed(3, [b"000000", b"000001", b"000002", b"000003", b"000004", b"00000 ", b"     3"]),
    placed(9, [b"0000000000000001", b"9999999999999999", b"000000000000000 "]),
    placed(25, [b"000000", b"000001", b"000002", b"000003", b"00000 ", b"\xff00000"]),
    placed(31, [b"0000000000000001", b"9999999999999999", b"000000000000000\xff", b"               0"]),
]


def message_of(n, changes, kind=ATUTAL):
    """The message of n items with these changes."""
    text = joined(records(n, kind))
    for place, gone, new in reversed(ascending(changes)):
        text = text[:place] + new + text[place + gone :]
    return text


def reply(changes):
    """The reply's records to a message of three items with these changes."""
    written = status.reply(message_of(3, changes), *GIVEN, b"0"[0], 7, 83000, 1000)
    return written.split(b"\r\n")[:-1]


def statuses(count):
    faults = [change(starts(3)[2], (51, b"0" * 24)), change(starts(3)[3], (17, b"0" * 10))]
    refused = [change(0, (9, b"X"))]
    for changes, name in (([], "three items"), (faults, "three items, two refused"), (refused, "a refused message")):
        parts = reply(changes)
        comment("STATUS of %s: each value, endings, ends, two faults, damage, tables" % name)
        base(parts)
        at = [sum(len(part) + 2 for part in parts[:k]) for k in range(len(parts) + 1)]
        kinds = [STATUS_HEAD] + [STATUS_REFERENCE] * (len(parts) - 2) + [STATUS_FOOT]
        for length in (*range(6), 10001):
            status_case(length, [])
        for start, fields in zip(at, kinds):
            for values in fields:
                for value in values:
                    if fields is not STATUS_REFERENCE or chance.under(2):
                        status_case(3, [change(start, value)])
        for start, end in zip(at, at[1:]):
            for place, gone, new in ((end - 2, 2, b"\n\r"), (end - 2, 2, b""), (end, 0, b"0"), (end - 3, 1, b"")):
                status_case(3, [(place, gone, new)])
            for place, gone in ((end - 1, 9999), (start, 9999), (start, end - start)):
                status_case(3, [(place, gone, b"")])
        for _ in range(count):
            two = [chance.of(list(zip(at, kinds))) for _ in range(2)]
            status_case(chance.of((3, 3, 2, 10)), [change(start, at_chance(fields)) for start, fields in two])
            status_case(3, [damage(at[-1])])


# The calls on a session, one by one


def opened(length):
    line(b"o", b"%05d" % length)


def taken(length, first, last, changes=()):
    line(b"t", b"%05d %04d %04d" % (length, first, last) + written(changes))


def closed():
    line(b"c", b"")


def sized(digits=b"111"):
    line(b"Z", digits)


def put(place, old, new):
    """The session's bytes from this place on, where they are to be others."""
    for k, byte in enumerate(new):
        if old[k] != byte:
            line(b"X", b"%04d %03d" % (place + k, byte))


WRONG_SIZES = (b"011", b"211", b"101", b"121", b"110", b"112")


def calls_of_wrong_size():
    """99 comes before every other refusal, alters nothing, and the session goes on."""
    comment("two items: buffers one too short and one too long, with right and with wrong E and lists")
    base(records(2))
    for digits in WRONG_SIZES:
        cut = chance.under(starts(2)[-1])
        opened(2)
        taken(2, 0, cut)
        sized(digits)
        for day, banks, known, length in ((E, BANKS, KNOWN, 2), (0, BAD_BANKS[0], BAD_KNOWN[0], 10001)):
            given(day, banks, known)
            if not digits.startswith(b"1"):  # of these two calls only the session has a size
                opened(length)
                taken(length, cut, 9999)
            closed()
            message_case(2, [], length)
            message_case(2, [(20, 9999, b"")], length)
            status_case(length, [])
        given()
        sized()
        taken(2, cut, 9999)
        closed()
        sized(digits)
        closed()
        sized()
    comment("STATUS of three items: numbers and id one too short and one too long")
    base(reply([]))
    for digits in WRONG_SIZES:
        sized(digits)
        status_case(3, [])
        status_case(2, [])
        status_case(3, [(0, 1, b"")])
    sized()


def no_session():
    """Every call on the session is refused with 5, before 2, 3 and 4."""
    taken(2, 0, 9999)
    given(banks=BAD_BANKS[0], known=BAD_KNOWN[0])
    taken(1, 0, 9999)
    given()
    closed()


def calls_without_session():
    """Never opened, closed, closed by 6, an opening refused over an open session; then opened anew."""
    base(records(2))
    comment("a session of zeros: 5")
    no_session()
    for room, name in ((2, "closed"), (1, "closed with 6")):
        comment("two items, a session %s: 5" % name)
        opened(room)
        taken(room, 0, 9999)
        closed()
        no_session()
    for day, length in ((20200230, 2), (E, 10001), (0, 10001)):
        comment("two items, an opening refused: 5, until one that isn't")
        opened(2)
        taken(2, 0, chance.under(starts(2)[-1]))
        given(day)
        opened(length)
        given()
        no_session()
        opened(2)
        taken(2, 0, 9999)
        closed()


def numbers_out_of_range(real):
    """docs/SESSION.md: place, width and value of each number one beyond its range, or so large that a sum with it wraps."""
    numbers = [int.from_bytes(real[place : place + 8], "little") for place in range(12, 68, 8)]
    room, accepted, _, refused, _, _, fill = numbers
    record = session.record_size(real[1], real[session.HELD : session.HELD + fill]) if real[1] < 2 else 1
    return [
        *((0, 1, mark) for mark in (0, 2, 255)),
        *((1, 1, phase) for phase in (5, 6, 255)),
        *((2, 1, letter) for letter in (2, 255)),
        *((3, 1, code) for code in (100, 255)),
        *((4, 4, day) for day in (0, 20200230)),
        *((8, 4, told) for told in (2, 2**31)),  # the kind, and after the bar a byte that isn't 0
        *((12, 8, length) for length in (10001, 2**64 - 1)),
        *((20, 8, count) for count in (room - refused + 1, 2**64 - refused)),
        *((28, 8, total) for total in (9999999999 * accepted + 1, 2**64 - 1)),
        *((36, 8, count) for count in (room - accepted + 1, 2**64 - accepted)),
        *((44, 8, total) for total in (9999999999 * refused + 1, 2**64 - 1)),
        *((52, 8, count) for count in (accepted + 1, 2**64 - 1)),
        *((60, 8, count) for count in (record, 2**64 - 1)),
        *((session.BAR, 1, bar) for bar in ((1, 2, 255) if real[8] else (2, 255))),
    ]


SECOND = [change(starts(3)[2], (51, b"0" * 24))]  # the second item of three is refused


def calls_on_damaged_sessions(kind, *sessions):
    """Each number out of its range, one at a time; put right again, the session goes on."""
    base(records(3, kind))
    for cut, changes, room in sessions:
        of = "" if kind == ATUTAL else " of BESZED"
        comment("three items%s, %d bytes read: bytes that are no session's, or out of range: 5" % (of, cut))
        real = session.of(message_of(3, changes, kind)[:cut], room, *GIVEN)
        opened(room)
        taken(room, 0, cut, changes)
        for place, width, number in numbers_out_of_range(real):
            right, wrong = real[place : place + width], (number % 2**64).to_bytes(width, "little")
            if right == wrong:  # a count of 0: nothing wraps
                continue
            put(place, right, wrong)
            taken(room, cut, 9999, changes)
            closed()
            put(place, wrong, right)
        put(session.SIZE - 1, b"\0", b"\x07")  # held beyond the fill: it doesn't matter
        taken(room, cut, 9999, changes)
        closed()


def told_bytes(number):
    return number.to_bytes(4, "little")


def calls_with_kinds_put_in():
    """docs/SESSION.md: byte 8 is the kind, 0 or 1. Items go by it and the closing gives it; before the head any of the two gives way to
    what the head tells. What follows it, without a bar, is zeros."""
    late = [change(starts(2)[2], (9, b"20200309"))]  # the second item is refused in a BESZED
    for kind in KINDS:
        base(records(2, kind))
        for cut in (100, 176, 300):
            comment("two items of %s, %d bytes read: the other kind put in, then numbers that are none: 5" % (kind.decode(), cut))
            own = KINDS.index(kind) if cut >= 176 else 0
            opened(2)
            taken(2, 0, cut, late)
            put(8, told_bytes(own), told_bytes(1 - own))
            for number in (2, 3, 512, 257, 2**16, 2**24, 2**32 - 1):
                put(8, told_bytes(1 - own), told_bytes(number))
                taken(2, cut, 9999, late)
                closed()
                put(8, told_bytes(number), told_bytes(1 - own))
            taken(2, cut, 9999, late)
            closed()


def calls_after_refused_pieces(count, kind, *sizes):
    """Pieces refused with 2, 3 and 4 alter nothing: the message ends as if they hadn't been."""
    for n in sizes:
        begin(n, kind, "a refused piece before each piece, another E after the opening")
        for _ in range(count):
            one, two = ([field_change(n, kind) for _ in range(times)] for times in (1, 2))
            changes = chance.of(([], one, two, [chance.of(break_changes(n))]))
            room, at = chance.of((n, n, n + 1, n - 1)), 0
            opened(room)
            for cut in [*cuts(n), 9999]:
                banks, known, length = chance.of(REFUSED)
                given(chance.of((E, 0, 20210105)), banks, known)
                taken(room + length, at, cut, changes)
                given()
                taken(room, at, cut, changes)
                at = cut
            closed()


# Bank lists, known lists and what a table is longer, of pieces that are refused: 2, 3, 4, and two or all at once.
REFUSED = (
    (BAD_BANKS[0], KNOWN, 0),
    (BANKS, BAD_KNOWN[0], 0),
    (BANKS, KNOWN, 1),
    (BANKS, BAD_KNOWN[1], 1),
    (BAD_BANKS[1], BAD_KNOWN[1], 9000),
)


# Cover answers (02 #103): a list of cover requests and a FEDJEL, which follow each other in the text

# The requests of the day. Two have one account, two one sum, three are for accounts that other banks keep than the head's.
REQUESTS = (
    b"A12345676T001202003010001" + b"117730161111101800000000" + b"%016d" % 12345,
    b"A12345676T001202003010002" + b"117730161111101800000000" + b"%016d" % 250000,
    b"5990000000009202003090007" + b"109000031234567600001238" + b"%016d" % 9000000000000000,
    b"A16000009T000202003100001" + b"117730162222201900000000" + b"%016d" % 12345,
    b"A61000009T123202003090002" + b"10900003".ljust(24) + b"%016d" % 77,
    b"A12345676T002202003010001" + b"011020000000000000000000" + b"%016d" % 0,
)
IDENTIFIERS = [own[:25] for own in REQUESTS]
FEDJEL_HEAD = b"01FEDJEL011720200310000120200310"
PAIRS = ((b"02", b"1"), (b"03", b"0"), (b"03", b"9"), (b"02", b"1"), (b"03", b"5"), (b"02", b"1"))  # types and answers that go together
MOST = 9999999999999999  # the largest sum of an item
NOT_DIGITS = b" :/"


def with_value(record, value):
    first, new = value
    return record[: first - 1] + new + record[first - 1 + len(new) :]


def cover_item(own, kind=b"02", answer=b"1"):
    """An answer to a request."""
    return kind + own + answer + b"00"


def cover_items(n):
    """Right answers to the first n requests."""
    return [cover_item(own, *pair) for own, pair in zip(REQUESTS[:n], PAIRS)]


def item_sum(item):
    return int(item[51:67]) if item[51:67].isdigit() else 0


def cover_totals(items):
    """Count and sum of the items of type 02, then of the others."""
    halves = [[item for item in items if (item[:2] == b"02") == own] for own in (True, False)]
    return [total for half in halves for total in (len(half), sum(item_sum(item) for item in half))]


def cover_foot(first_count, first_sum, last_count, last_sum):
    return b"04%04d%016d%04d%016d" % (first_count % 10**4, first_sum % 10**16, last_count % 10**4, last_sum % 10**16)


def fedjel(items, opening=FEDJEL_HEAD, foot=None):
    """The message; where no foot is given, the one that tells the items' totals."""
    return joined([opening, *items, cover_foot(*cover_totals(items)) if foot is None else foot])


def alike(a, b):
    """How many bytes two texts begin with alike."""
    return next((k for k, (x, y) in enumerate(zip(a, b)) if x != y), min(len(a), len(b)))


def difference(old, new):
    """The changes that make a text another one: each run of other bytes, or what lies between its equal ends where the length is another."""
    if len(old) != len(new):
        first = alike(old, new)
        last = alike(old[first:][::-1], new[first:][::-1])
        return [(first, len(old) - first - last, new[first : len(new) - last])]
    runs = []
    for k in (k for k in range(len(old)) if old[k] != new[k]):
        if runs and k - runs[-1][1] < 5:  # a change has ten bytes beside its own
            runs[-1][1] = k + 1
        else:
            runs.append([k, k + 1])
    return [(start, end - start, new[start:end]) for start, end in runs]


class Cover:
    """A base text of requests and records. Each case has its own list and message, written as the changes of these."""

    def __init__(self, requests, items, opening=FEDJEL_HEAD, foot=None):
        self.requests, self.message = b"".join(requests), fedjel(items, opening, foot)
        line(b"M", b"")
        line(b"-", self.requests)
        for part in self.message.split(b"\r\n")[:-1]:
            line(b"+", part)

    def changes(self, message, requests):
        start = len(self.requests)
        own = [(start + place, gone, new) for place, gone, new in difference(self.message, message)]
        return written(difference(self.requests, requests) + own)

    def judge(self, message=None, requests=None, table=None):
        """A d line; the table has a byte for each item, or a few more, where nothing else is said."""
        message, requests = self.message if message is None else message, self.requests if requests is None else b"".join(requests)
        length = max(0, len(message) - 78) // 72 + chance.of((0, 0, 0, 1, 4)) if table is None else table
        line(b"d", b"%06d %05d" % (len(requests), length) + self.changes(message, requests))

    def answer(self, identifier, message=None, requests=None, cover=1, count=3):
        """A q line."""
        message, requests = self.message if message is None else message, self.requests if requests is None else b"".join(requests)
        words = b"%06d %03d %010d %s" % (len(requests), cover, count, identifier)
        line(b"q", words + self.changes(message, requests))


# Values of a FEDJEL's fields, bad ones and good ones at the edge.
FEDJEL_HEAD_VALUES = [
    placed(1, [b"02", b"00", b"04", b"11", b"1 ", b" 1", b"0/"]),
    placed(3, [b"FEDSTA", b"fedjel", b"FEDJE ", b"ATUTAL", b"FEDJEM", b"GEDJEL", b"FEDKER"]),
    placed(9, [b"1", b"5", b"9", b"@", b"/", b":", b" ", b"A"]),
    placed(10, [b"109", b"011", b"118", b"017", b"127", b"000", b"999", b"11 ", b" 17", b"1:7", b"10A", b"010", b"   "]),
    placed(13, dates(E, -400, -8, -4, -3, -2, -1, 0, 1, 2, 366) + NO_DATES + [b"2020030:"]),
    placed(21, [b"0000", b"9999", b"000 ", b"    ", b"-001", b"00:1", b"/001", b"000:"]),
    placed(25, dates(E, -366, -7, -1, 0, 1, 7) + [b"2020031 ", b" 0200310", b"00000000", b"2020030:", b"30200310", b"        "]),
]
COVER_ITEM_VALUES = [
    placed(1, [b"02", b"03", b"01", b"04", b"00", b"12", b"2 ", b" 2", b"0:"]),
    placed(3, [*IDENTIFIERS, b"a", b"B", b" ", b"0" * 25]) + placed(15, [b"2", b" "]) + placed(27, [b"0", b"9", b" "]),
    placed(28, [own[25:49] for own in REQUESTS[1:5]] + [b"0", b" "]) + placed(51, [b"1", b" "]),
    placed(52, [own[49:] for own in REQUESTS[:5]] + [b"9", b" ", b":", b"/"]) + placed(67, [b"4", b"6", b" ", b":", b"/"]),
    placed(52, [b" " * 16, b"%016d" % MOST, b"%016d" % 0]),
    placed(68, [b"0", b"1", b"5", b"9", b"2", b"4", b"6", b"8", b"/", b":", b" ", b"A"]),
    placed(69, [b"99", b"  ", b"~~", b"0 ", b"A!"]),
]
COVER_FOOT_VALUES = [
    placed(1, [b"03", b"02", b"00", b"4 ", b" 4", b"0:", b"14"]),
    placed(3, [b"0000", b"0001", b"0002", b"9999", b"   1", b"000 ", b"000/", b":001"]),
    placed(7, [b"0" * 16, b"%016d" % 12344, b"%016d" % 12346, b"9" * 16, b"%16d" % 12345]),
    placed(23, [b"0000", b"0001", b"0003", b"9999", b"   2", b"000 ", b"000/", b":002"]),
    placed(27, [b"0" * 16, b"9000000000249999", b"9000000000250001", b"9" * 16, b" 900000000025000"]),
]


def covers_alone():
    """Every value of every field alone, then each type with each answer, and the FEDSTA beside each."""
    comment("FEDJEL of 3 items, a list of six: good, each value of a field alone")
    items = cover_items(3)
    base_text = Cover(REQUESTS, items)
    foot = cover_foot(*cover_totals(items))
    base_text.judge()
    for values in FEDJEL_HEAD_VALUES:
        for value in values:
            base_text.judge(fedjel(items, with_value(FEDJEL_HEAD, value)))
    for values in COVER_FOOT_VALUES:
        for value in values:
            base_text.judge(fedjel(items, foot=with_value(foot, value)))
    for values in COVER_ITEM_VALUES:
        for value in values:
            k = chance.under(3)
            changed = [*items[:k], with_value(items[k], value), *items[k + 1 :]]
            base_text.judge(fedjel(changed))  # the foot tells what the items give
            base_text.judge(fedjel(changed, foot=foot))
            if chance.under(2):
                base_text.answer(IDENTIFIERS[k], fedjel(changed))
    comment("FEDJEL of 3 items: sums that aren't digits but would give the right number, identifiers that stand elsewhere in the list")
    for k, value in ((0, (52, b"000000000001233?")), (0, (52, b"           12345")), (1, (52, b"000000000024:000")), (0, (67, b"E"))):
        base_text.judge(fedjel([*items[:k], with_value(items[k], value), *items[k + 1 :]], foot=foot))
    base_text.judge(fedjel([*items[:2], with_value(cover_item(REQUESTS[5]), (52, b" " * 16))]))
    for place in (1, 24, 25, 26, 40, 64, 66, 105):
        elsewhere = base_text.requests[place : place + 25]
        base_text.judge(fedjel([*items[:2], with_value(items[2], (3, elsewhere))]))
        base_text.answer(elsewhere)
    comment("FEDJEL of 1 item: each type with each answer")
    base_text = Cover(REQUESTS, items[:1])
    for kind in (b"02", b"03", b"01", b"04", b"  "):
        for answer in (b"0", b"1", b"5", b"9", b"2", b" "):
            text = fedjel([cover_item(REQUESTS[0], kind, answer)])
            base_text.judge(text)
            base_text.answer(IDENTIFIERS[0], text, cover=chance.under(2))


def covers_of_letters():
    """A byte outside 20h-7Eh at every place of head, item and foot; every byte where nothing else is asked for; two that pass."""
    comment("FEDJEL of 2 items: a bad letter at each place of the head, an item and the foot")
    items = cover_items(2)
    base_text = Cover(REQUESTS, items)
    bad = BAD_LETTERS + LETTERS
    for k, (start, length) in enumerate(((0, 32), (34, 70), (106, 70), (178, 42))):
        for place in range(start, start + length) if k != 2 else (106, 140, 175):
            letter = bytes([chance.of(bad)])
            base_text.judge(with_value(base_text.message, (place + 1, letter)))
    comment("FEDJEL of 2 items: each byte in an error code, and bad letters beside another fault")
    for letter in range(256):
        base_text.judge(with_value(base_text.message, (104 + 72 * (letter % 2) - letter // 128, bytes([letter]))))
    for letter in b"\x1f ~\x7f\x80\x81\xfb\xff":
        for place in (1, 9, 32, 37, 62, 104, 179, 220):
            base_text.answer(IDENTIFIERS[chance.under(2)], with_value(base_text.message, (place, bytes([letter]))))


def covers_broken():
    """Lengths and endings (12): every kind of place, records left out, put in and moved, bytes moved from one record to another."""
    items = cover_items(3)
    for n in (1, 3):
        comment("FEDJEL of %d items: lengths and endings that are wrong" % n)
        base_text = Cover(REQUESTS, items[:n])
        text = base_text.message
        at = [0, *(34 + 72 * k for k in range(n + 1)), len(text)]
        for start, end in zip(at, at[1:]):
            for ending in (b"\n\r", b"\r\r", b"\n\n", b"\r", b"\n", b"", b"\r\n\r\n", b"  ", b"\r ", b" \n"):
                base_text.judge(text[: end - 2] + ending + text[end:], table=n)
            for cut in (start, start + 1, (start + end) // 2, end - 2, end - 1):
                base_text.judge(text[:cut], table=n)
            for begin, after, new in ((start, start, b"0"), (end - 3, end - 2, b""), (start, start + 1, b""), (start, end, b"")):
                base_text.judge(text[:begin] + new + text[after:], table=n)
            base_text.judge(text[: end - 2] + b"0\r\n" + text[end : len(text) - 3] + b"\r\n", table=n)
            base_text.judge(text[:start] + text[start + 1 : end] + b"0" + text[end:], table=n)
            base_text.answer(IDENTIFIERS[0], text[: end - 1] + b"\r" + text[end:])
            base_text.answer(IDENTIFIERS[0], text[: end - 3] + text[end - 2 :])
        for new in (b"0", b"\r", b"\n", b"\r\n", b"0" * 72, b"0" * 70 + b"\r\n", text[-44:], text):
            base_text.judge(text + new, table=n + 3)
            base_text.judge(new + text, table=n + 3)
        for n_bytes in (0, 1, 2, 33, 34, 43, 44, 77, 78, 79, 149, 150, 151):
            base_text.judge((text * 2)[:n_bytes], table=3)
        for parts in ([], items[:1] * 2, [FEDJEL_HEAD.ljust(70), *items[:n]], [*items[:n], cover_foot(1, 2, 3, 4).ljust(70)]):
            base_text.judge(fedjel(parts), table=4)
            base_text.answer(IDENTIFIERS[0], fedjel(parts))


# One fault for each code in the order of #103: the record (0 the head, 1 to 3 an item, 4 the foot) and the value.
COVER_RANKED = [
    *((0, (9, b"\x80")), (2, (69, b"\x7f")), (4, (1, b"\x1f"))),
    *((0, value) for value in ((1, b"02"), (3, b"FEDSTA"), (9, b"@"), (10, b"118"), (13, b"20200308"), (21, b"000 "), (25, b"20200309"))),
    *((1, (60, b" ")), (2, (1, b"04")), (2, (52, b":")), (3, (1, b"01"))),
    *((4, value) for value in ((1, b"03"), (3, b"0002"), (7, b"9"), (23, b"000 "), (27, b"/"))),
    *((1, (3, b"B")), (2, (28, b"9")), (3, (68, b"1")), (3, (52, b"8"))),
]


def covers_in_pairs():
    """Each fault alone and each two: the first in order gives the message code, each item keeps its own; no FEDSTA where there is a code."""
    comment("FEDJEL of 3 items: each two faults that have a code")
    items = cover_items(3)
    base_text = Cover(REQUESTS, items)
    right = [FEDJEL_HEAD, *items, cover_foot(*cover_totals(items))]
    for k, (record, value) in enumerate(COVER_RANKED):
        parts = [*right[:record], with_value(right[record], value), *right[record + 1 :]]
        base_text.judge(joined(parts))
        for identifier in IDENTIFIERS[:3] if 0 < record < 4 else [chance.of(IDENTIFIERS[:3])]:
            base_text.answer(identifier, joined(parts))
        for other, later in COVER_RANKED[:k]:
            base_text.judge(joined([*parts[:other], with_value(parts[other], later), *parts[other + 1 :]]))


# Answers to the first request: right ones, a wrong account, a wrong sum, a type and an answer that don't go together; and an unknown one.
ANSWERS = (
    *(cover_item(REQUESTS[0], *pair) for pair in ((b"02", b"1"), (b"03", b"5"))),
    *(with_value(cover_item(REQUESTS[0]), value) for value in ((51, b"1"), (67, b"6"), (68, b"0"), (27, b"9"))),
)


def covers_repeated():
    """Up to three answers to one request, in every order; longer ones by chance, with answers to another between them."""
    for n in (1, 2, 3):
        comment("FEDJEL of %d items: answers to one request, right and wrong, in every order" % n)
        base_text, of = Cover(REQUESTS[:2], [ANSWERS[0]] * n), ANSWERS[:5] if n == 3 else ANSWERS
        for k in range(len(of) ** n):
            text = fedjel([of[k // len(of) ** i % len(of)] for i in range(n)])
            base_text.judge(text)
            if n < 3 or chance.under(4) == 0:
                base_text.answer(IDENTIFIERS[0], text, cover=chance.under(2))
    comment("FEDJEL of 6 items: answers to two requests, right and wrong")
    base_text = Cover(REQUESTS[:2], [ANSWERS[0]] * 3 + [cover_item(REQUESTS[1])] * 3)
    other = [cover_item(REQUESTS[1], *pair) for pair in PAIRS[:3]] + [with_value(cover_item(REQUESTS[1]), value) for value in ((28, b"9"), (68, b"9"))]
    for _ in range(16):
        text = fedjel([chance.of(chance.of((ANSWERS, other))) for _ in range(6)])
        base_text.judge(text)
        base_text.answer(IDENTIFIERS[chance.under(2)], text, cover=chance.under(2))


def covers_of_faulty_items():
    """Any of the faults of an item at once, with and without a right answer before it; with an Ü fault of the item too."""
    comment("FEDJEL of 2 items: every set of faults of an item, after a right answer and after a wrong one")
    faults = ((3, b"B"), (40, b"9"), (67, b" "), (68, b"7"), (1, b"04"))
    base_text = Cover(REQUESTS[:3], [ANSWERS[0]] * 2)
    for first in (ANSWERS[0], ANSWERS[2]):
        for chosen in range(2 ** len(faults)):
            item = ANSWERS[0]
            for k, fault in enumerate(faults):
                item = with_value(item, fault) if chosen >> k & 1 else item
            base_text.judge(fedjel([first, item]))


def foots(totals, most):
    """Foots with the right totals, shared out otherwise, up to so many of them off by one, and not digits."""
    first_count, first_sum, last_count, last_sum = totals
    yield from (cover_foot(*totals), cover_foot(*totals[2:], *totals[:2]), cover_foot(0, 0, 0, 0))
    yield cover_foot(first_count + last_count, first_sum + last_sum, 0, 0)
    yield cover_foot(0, 0, first_count + last_count, first_sum + last_sum)
    yield cover_foot(first_count, 0, last_count, first_sum + last_sum)
    yield cover_foot(0, first_sum, first_count + last_count, last_sum)
    for steps in range(3**4):
        off = [steps // 3**k % 3 - 1 for k in range(4)]
        if 4 - most <= off.count(0) < 4:
            yield cover_foot(*(total + step for total, step in zip(totals, off)))
    for first, last in ((3, 6), (7, 22), (23, 26), (27, 42)):
        for byte in NOT_DIGITS:
            yield with_value(cover_foot(*totals), (chance.of((first, last)), bytes([byte])))
        together = cover_foot(0, 0, first_count + last_count, first_sum + last_sum)
        yield with_value(together, (first, b" " * (last - first + 1)))
    yield with_value(cover_foot(*totals), (7, b"%015d%c" % (first_sum // 10 - 1, 58 + first_sum % 10)))


def covers_by_totals():
    """Foots with and without faulty items."""
    items = cover_items(4)
    faulty = ((3, b"B"), (28, b"9"), (52, b"8"), (68, b"7"), (3, REQUESTS[0]))  # 74, 71, 89, 76, 75
    for k, value in enumerate((None, *faulty)):
        comment("FEDJEL of 4 items: totals, %s" % ("the third item faulty" if value else "no item faulty"))
        own = [*items[:2], with_value(items[2], value) if value else items[2], items[3]]
        base_text = Cover(REQUESTS, own)
        for foot in foots(cover_totals(own), 2 if k < 2 else 1):
            base_text.judge(fedjel(own, foot=foot))
        base_text.answer(IDENTIFIERS[0])
        base_text.answer(IDENTIFIERS[0], fedjel(own, foot=cover_foot(0, 0, 4, sum(item_sum(item) for item in own))))
    comment("FEDJEL of 2 items: sums that a field holds just, and one more")
    requests = [own[:49] + b"%016d" % total for own, total in zip(REQUESTS, (MOST, 1))]
    for pairs in ((0, 3), (0, 1), (1, 2), (0, 4)):  # places of PAIRS; the first two are both 02, then 02 and 03, both 03
        own = [cover_item(request, *PAIRS[k]) for request, k in zip(requests, pairs)]
        base_text = Cover(requests, own)
        for changed in (own, [own[0], with_value(own[1], (68, b"7"))]):
            for sums in ((MOST, 1), (1, MOST), (MOST + 1, 0), (0, MOST + 1), (MOST, 0), (0, MOST), (MOST // 2 + 1, MOST // 2 + 1)):
                counts = cover_totals(changed)[::2]
                base_text.judge(fedjel(changed, foot=cover_foot(counts[0], sums[0], counts[1], sums[1])))
    comment("FEDJEL of 3 items: sums that the two fields don't hold together")
    for last in (0, 1, 2, 3):
        requests = [own[:49] + b"%016d" % total for own, total in zip(REQUESTS, (MOST, MOST, last))]
        own = [cover_item(request, *pair) for request, pair in zip(requests, PAIRS)]
        base_text = Cover(requests, own)
        for changed in (own, [*own[:2], with_value(own[2], (68, b"7"))], [own[0], cover_item(requests[1]), own[2]]):
            for sums in ((MOST, MOST), (MOST, last), (last, MOST), (0, 0), (MOST, MOST - 1)):
                counts = cover_totals(changed)[::2]
                base_text.judge(fedjel(changed, foot=cover_foot(counts[0], sums[0], counts[1], sums[1])))


def bad_lists():
    """Lists that are refused with 11: a length, a sum, a twin."""
    near = with_value(REQUESTS[0], (26, b"9" * 40))
    return [
        *((b"".join(REQUESTS)[:length],) for length in (1, 64, 66, 129, 389)),
        *((*REQUESTS, new) for new in (b"0", b"0" * 64, REQUESTS[0], near, with_value(REQUESTS[5], (50, b"1")), REQUESTS[5])),
        *((REQUESTS[0], new, *REQUESTS[1:]) for new in (REQUESTS[0], near, with_value(REQUESTS[0], (65, b"0")))),
        *((*REQUESTS[:k], with_value(REQUESTS[k], value), *REQUESTS[k + 1 :]) for k, value in zip(range(6), placed(50, b" |/|:|\x80|-|\n".split(b"|")))),
        *((*REQUESTS[:k], with_value(REQUESTS[k], value), *REQUESTS[k + 1 :]) for k, value in zip(range(6), placed(65, b" |/|:|\xff|\0|A".split(b"|")))),
        (*REQUESTS[:2], with_value(REQUESTS[2], (58, b".")), *REQUESTS[3:]),
        (*REQUESTS[:2], with_value(REQUESTS[3], (50, b"x")), *REQUESTS[3:]),  # a sum and a twin
    ]


def good_lists():
    """Lists that pass: none, some, identifiers that are near each other, bytes that aren't examined."""
    return [
        *((), REQUESTS[:1], REQUESTS[1:2], REQUESTS[2:], REQUESTS[3:5]),
        *((*REQUESTS, with_value(REQUESTS[0], value)) for value in ((1, b"B"), (25, b"3"), (25, b"\0"), (13, b" "), (1, b"\r\n"))),
        *((*REQUESTS[:5], with_value(REQUESTS[5], value)) for value in ((1, bytes(range(25))), (26, b"\xff" * 24), (26, b"\r\n "))),
        (b"\xff" * 49 + b"0" * 16, *REQUESTS, bytes(49) + b"9" * 16),
        (*REQUESTS[:1], *(with_value(own, (26, b" ")) for own in REQUESTS[1:])),
    ]


def covers_by_order():
    """The order of the list changes no answer."""
    comment("FEDJEL of 4 items: one list in several orders")
    items = [*cover_items(2), ANSWERS[0], with_value(cover_item(REQUESTS[4]), (52, b"9"))]
    for requests in (REQUESTS, REQUESTS[::-1], REQUESTS[3:] + REQUESTS[:3], REQUESTS[::2] + REQUESTS[1::2], REQUESTS[1:] + REQUESTS[:1]):
        base_text = Cover(requests, items)
        base_text.judge()
        base_text.judge(fedjel(items, with_value(FEDJEL_HEAD, (10, b"011"))))
        for k in (0, 1, 4):
            base_text.answer(IDENTIFIERS[k])


def covers_given():
    """Lists, right and wrong; heads of banks by them; refusals one by one and together, with each length of the table."""
    items = [*cover_items(4), ANSWERS[0]]
    comment("FEDJEL of 5 items: lists that pass")
    base_text = Cover(REQUESTS, items)
    for requests in good_lists():
        base_text.judge(requests=requests)
        for k in (0, 5):
            base_text.answer(IDENTIFIERS[k], requests=requests)
        for bank in (b"109", b"011"):
            base_text.judge(fedjel(items, with_value(FEDJEL_HEAD, (10, bank))), requests)
    for bank in (b" 17", b"1:7", b"11/", b"A00", b"   ", b"117"):
        changed = with_value(base_text.message, (10, bank))
        base_text.judge(changed, (*REQUESTS[:5], with_value(REQUESTS[5], (26, bank))))
        base_text.judge(changed, (with_value(REQUESTS[5], (26, bank)),))
    comment("FEDJEL of 5 items: lists that are refused")
    for requests in bad_lists():
        base_text.judge(requests=requests)
        base_text.answer(IDENTIFIERS[0], requests=requests)
    comment("FEDJEL of 5 items: tables of every length around that, and long ones")
    for length in (*range(8), 9999, 10000, 10001, 20000):
        base_text.judge(table=length)
        base_text.judge(fedjel(items, with_value(FEDJEL_HEAD, (9, b"@"))), table=length)
    comment("FEDJEL of 5 items: two and more refusals at once, numbers of a wrong size")
    for digits in (b"111", b"101", b"121", b"110", b"012"):
        sized(digits)
        for chosen in range(2**4):
            day, requests = (20200230 if chosen & 1 else E), (chance.of(bad_lists()) if chosen & 2 else REQUESTS)
            text = base_text.message[:-1] if chosen & 4 else base_text.message
            line(b"E", b"%08d" % day)
            base_text.judge(text, requests, 4 if chosen & 8 else 5)
    sized()
    for day in (*NO_DAYS, 99999999):
        line(b"E", b"%08d" % day)
        base_text.judge()
        base_text.answer(IDENTIFIERS[0])
    given()


# Each day of the week as E, then days around the ends of months, years and the calendar.
COVER_DAYS = (*range(20200309, 20200316), 20200301, 20200229, 20210101, 20240101, 20000301, *range(10101, 10109), 99991231)


def covers_by_days():
    items = cover_items(1)
    base_text = Cover(REQUESTS, items)
    for day in COVER_DAYS:
        comment("FEDJEL of 1 item: E %08d, dates around it" % day)
        line(b"E", b"%08d" % day)
        own = with_value(FEDJEL_HEAD, (25, b"%08d" % day))
        for date in dates(day, -5, -4, -3, -2, -1, 0, 1):
            base_text.judge(fedjel(items, with_value(own, (13, date))))
        base_text.judge()
        base_text.answer(IDENTIFIERS[0], fedjel(items, with_value(own, (13, b"%08d" % day))))
    given()


def fedstas():
    """Each answer with cover and without; particulars and outputs; which answer stands; refusals one by one and together."""
    comment("FEDSTA from 6 items: each answer, cover yes for 1 alone")
    base_text = Cover(REQUESTS, cover_items(6))
    for cover in (0, 1, 2, 3, 128, 129, 254, 255):
        for identifier in IDENTIFIERS:
            base_text.answer(identifier, cover=cover, count=chance.of((0, 1, 7, 1234, 999999)))
    comment("FEDSTA: identifiers that aren't in the list, or have a wrong size")
    for identifier in (b"A12345676T001202003010003", b"B12345676T001202003010001", b" " * 25, b"a" + IDENTIFIERS[0][1:], IDENTIFIERS[0][1:] + b"1"):
        base_text.answer(identifier)
    for identifier in (b"", b"A", IDENTIFIERS[0][:24], IDENTIFIERS[0] + b" ", IDENTIFIERS[0] + b"1", IDENTIFIERS[0] * 2):
        base_text.answer(identifier)
        line(b"E", b"00000000")
        base_text.answer(identifier, b"", (b"0",), 0, 1000000)
        given()
    comment("FEDSTA: a request that no item answers; the first right answer stands")
    answers = [cover_item(REQUESTS[0], *pair) for pair in (*PAIRS[:3], PAIRS[4])] + list(ANSWERS[2:5])
    base_text = Cover(REQUESTS, [cover_item(REQUESTS[1]), *answers[:2]])
    base_text.answer(IDENTIFIERS[2])
    for first in answers:
        for last in answers:
            for cover in (0, 1) if b"1" in (first[67:68], last[67:68]) else (chance.under(2),):
                base_text.answer(IDENTIFIERS[0], fedjel([cover_item(REQUESTS[1]), first, last]), cover=cover)
    fedsta_particulars()
    fedsta_refusals()


def fedsta_particulars():
    comment("FEDSTA: particulars and outputs at their limits")
    base_text = Cover(REQUESTS, cover_items(6))
    right = b"0", 7, 83000, 3, 104
    others = (
        (b"0", b"@", b"1", b"9", b"A", b" ", b"?", b"/", b"\0", b"\xff"),
        (0, 1, 9999, 10000, 99999, 65543, 4294967295),
        (0, 59, 60, 100, 5959, 5960, 6000, 235959, 235960, 236000, 240000, 999999, 1000000, 1083000, 4294967295),
        (0, 1, 99999, 999999, 1000000, 1000003, 4294967295),
        (0, 1, 54, 56, 57, 102, 103, 104, 105, 110, 2000),
    )
    for k, values in enumerate(others):
        for value in values:
            duplicate, number, time, count, room = (*right[:k], value, *right[k + 1 :])
            line(b"P", duplicate + b" %010d %010d %06d" % (number, time, room))
            base_text.answer(chance.of((IDENTIFIERS[0], IDENTIFIERS[3], IDENTIFIERS[5])), count=count)
            base_text.answer(chance.of((IDENTIFIERS[1], IDENTIFIERS[2], IDENTIFIERS[4])), count=count, cover=0)


def fedsta_refusals():
    comment("FEDSTA: every set of refusals")
    base_text = Cover(REQUESTS, [cover_item(REQUESTS[1]), ANSWERS[1]])
    for chosen in range(2**6):
        line(b"E", b"%08d" % (20200230 if chosen & 1 else E))
        requests, text = chance.of(bad_lists()) if chosen & 2 else REQUESTS, base_text.message
        wrong = chance.of((b"@", b"1 ", b" ")) if chosen & 16 else b"0"
        line(b"P", wrong[:1] + b" %010d %010d %06d" % (10000 if wrong == b"@" else 7, 83000, 103 if chosen & 32 else 104))
        absent = chance.under(3) if chosen & 8 else 3  # not in the list, a code of the message, no cover
        text = with_value(text, (9, b"@")) if absent == 1 else text
        text = text[:-1] + b"\r" if chosen & 4 else text
        base_text.answer(IDENTIFIERS[2 if absent == 0 else 1], text, requests, int(absent != 2))
    given()
    for duplicate, number, time, count in ((b"1", 7, 83000, 3), (b"0", 10000, 83000, 3), (b"0", 7, 236000, 3), (b"0", 7, 83000, 1000000)):
        line(b"P", duplicate + b" %010d %010d 000103" % (number, time))
        base_text.answer(IDENTIFIERS[1], count=count)
        base_text.answer(IDENTIFIERS[1], count=count, cover=0)
        base_text.answer(IDENTIFIERS[2], count=count)
    line(b"P", PARTICULARS)


def cover_field(items):
    """A message of these items with chance values in fields of chance records."""
    parts = [FEDJEL_HEAD, *items, cover_foot(*cover_totals(items))]
    for _ in range(1 + chance.under(3)):
        k = chance.of((0, len(parts) - 1, *range(1, len(parts) - 1)))
        fields = FEDJEL_HEAD_VALUES if k == 0 else COVER_FOOT_VALUES if k == len(parts) - 1 else COVER_ITEM_VALUES
        parts[k] = with_value(parts[k], at_chance(fields))
        if 0 < k < len(parts) - 1 and chance.under(2):
            parts[-1] = cover_foot(*cover_totals(parts[1:-1]))
    return joined(parts)


def damaged(text):
    for place, gone, new in [damage(len(text)) for _ in range(1 + chance.under(2))]:
        text = text[:place] + new + text[place + gone :]
    return text


def shuffled(values):
    left, taken = list(values), []
    while left:
        taken.append(left.pop(chance.under(len(left))))
    return taken


def covers_at_chance(count):
    for _ in range(count):
        n = 1 + chance.under(6)
        requests = shuffled(REQUESTS)[: chance.of((6, 6, 6, 4, 2))]
        items = [cover_item(chance.of(chance.of((requests, REQUESTS))), *chance.of(PAIRS)) for _ in range(n)]
        comment("FEDJEL of %d items by chance, a list of %d: values, damage, another order of the list" % (n, len(requests)))
        base_text = Cover(requests, items)
        base_text.judge(requests=chance.of((requests, requests, shuffled(requests))))
        for _ in range(2):
            base_text.answer(chance.of(IDENTIFIERS), cover=chance.under(2))
        for _ in range(3):
            text = cover_field(items)
            base_text.judge(text)
            base_text.answer(chance.of(IDENTIFIERS), text, cover=chance.under(2))
        base_text.judge(damaged(base_text.message))
        base_text.judge(requests=[damaged(b"".join(requests))])


def large_cover(requests, groups, foot, tables):
    """A base text of many requests and items, told by count and bytes, whose identifiers begin with their numbers; a d line for each table."""
    line(b"M", b"")
    for count, own in requests:
        line(b"*", b"%06d05-" % count + own)
    line(b"+", FEDJEL_HEAD)
    for count, item in groups:
        line(b"*", b"%06d25+" % count + item)
    line(b"+", foot)
    for table in tables:
        line(b"d", b"%06d %05d" % (65 * sum(count for count, _ in requests), table))


def many(total):
    """A request with this sum; the number comes over its first five bytes."""
    return b"00000".ljust(25, b"x") + b"117730161111101800000000" + b"%016d" % total


def covers_large_and_faulty():
    """Many answers to requests that aren't in the list: their sums go beyond 64 bits, their number beyond four digits."""
    comment("FEDJEL of many items, each unknown: sums beyond 64 bits, and as they would be if they wrapped")
    known = ((1, REQUESTS[0]),)
    for n in (2, 3, 1844, 1845, 1846, 3690):
        total, wrapped, cut = n * MOST, n * MOST % 2**64, n * MOST % 10**16
        for whole in sorted({total, wrapped, cut, 2 * MOST}) if n != 2 else (total, total - 1):
            if whole <= 2 * MOST:
                foot = cover_foot(n, min(whole, MOST), 0, whole - min(whole, MOST))
                large_cover(known, ((n, cover_item(many(MOST))),), foot, (n,))
    foot = cover_foot(900, 1845 * MOST - 2**64 - 1, 945, 1)
    large_cover(known, ((922, cover_item(many(MOST))), (923, cover_item(many(MOST), b"03", b"0"))), foot, (1845,))
    comment("FEDJEL of many items, each unknown: counts that the two fields hold together, and one more")
    for n, first, last in ((9999, 9999, 0), (10000, 9999, 1), (10000, 0, 0), (10001, 5000, 5001), (19998, 9999, 9999), (19999, 9999, 9999)):
        large_cover(known, ((n, cover_item(many(1))),), cover_foot(first, n, last, 0), (n, n - 1) if n == 10001 else (n,))


def covers_large():
    """Many right answers: each has its request."""
    comment("FEDJEL of 1,845 items, none faulty: sums beyond 64 bits, and as they would be if they wrapped")
    n = 1845
    for kind, answer in PAIRS[:2]:
        for total in (n * MOST % 2**64, n * MOST % 10**16):
            totals = (n, total, 0, 0) if kind == b"02" else (0, 0, n, total)
            large_cover(((n, many(MOST)),), ((n, cover_item(many(MOST), kind, answer)),), cover_foot(*totals), (n,))
    comment("FEDJEL of 1,845 items, none faulty: a list of one more, code 00, and two FEDSTAs")
    large_cover(((n + 1, many(7)),), ((n, cover_item(many(7))),), cover_foot(n, 7 * n, 0, 0), (n, n - 1, n + 1))
    for k in (n, n + 1):
        line(b"q", b"%06d 001 0000000003 %05d%s" % (65 * (n + 1), k, b"x" * 20))
    comment("FEDJEL of 10,000 items of type 02, none faulty, which four digits don't hold")
    large_cover(((10000, many(1)),), ((10000, cover_item(many(1))),), cover_foot(0, 10000, 0, 0), (10000,))


def covers():
    covers_alone()
    covers_of_letters()
    covers_broken()
    covers_in_pairs()
    covers_repeated()
    covers_of_faulty_items()
    covers_by_totals()
    covers_by_order()
    covers_given()
    covers_by_days()
    fedstas()
    covers_at_chance(24)
    covers_large_and_faulty()
    covers_large()


# Barred banks (02 #105). The head of the base texts has bank 16000009, whose code is 160.

# Under code 160: listed; good by annex 6 and not listed; listed and bad by annex 6; neither.
BARRED_BANKS = (b"16000009", b"16000016", b"16000010", b"16099998")
# Not eight digits: another byte at each place, and bytes that would make the right number if they were digits.
NO_BANKS = [b"16000009"[:k] + byte + b"16000009"[k + 1 :] for k in range(8) for byte in (b" ", b"A", b":")]
NO_BANKS += [b"15:00009", b"160" + b" " * 5, b"160\r\n009", b"160\x0000\xb69", b" " * 8, b"000    0", b"1600000/"]
# Other codes, listed and not.
OTHER_BANKS = (b"61000009", b"01203457", b"01600006", b"60000006", b"15900008", b"16100002")
GOOD_BARRED = (
    *((160,), (0, 160), (160, 999), (0, 160, 999), (159, 160, 161), (157, 158, 159, 160), (160, 161, 162, 163)),
    *((), (0,), (999,), (159,), (161,), (16,), (600,), (159, 161), (0, 999), (0, 16, 600, 999)),
)
BAD_BARRED = (
    *((1000,), (160, 160), (161, 160), (160, 1000), (999, 1000), (0, 0), (1, 0), (0, 999, 160), (159, 160, 160, 161)),
    *((160, 161, 162, 161), (4294967295,), (160, 4294967295), (16000009,), (0, 160, 1000, 999)),
)
CODES = tuple(range(1000))


def barred(*codes):
    """An A line."""
    line(b"A", b"".join(b"%010d" % code for code in codes))


def bank_of(code):
    """A bank of this code, zeros for its branch, good by annex 6."""
    first, second, third = b"%03d" % code
    return b"%03d0000%d" % (code, -(9 * (first - 48) + 7 * (second - 48) + 3 * (third - 48)) % 10)


def banks_listed(codes):
    """A B line: banks of these codes, and that of the base's items."""
    line(b"B", b"".join(b"%010d" % bank for bank in sorted({61000009, *(int(bank_of(code)) for code in codes)})))


def head_bank(value):
    return change(0, (35, value))


def bars_by_list():
    begin(5, ATUTAL, "head bank 160; lists with its code: 00 and 14 for each item, none accepted, zero watch 0; then lists without it")
    for codes in GOOD_BARRED:
        barred(*codes)
        message_case(5, [])
        message_case(5, [field_change(5)])
    comment("the same messages: lists that are refused, 15: a number over 999, a twin, a descent")
    for codes in BAD_BARRED:
        barred(*codes)
        message_case(5, [])
    barred()


def bars_by_bank():
    """Listed, 00; not listed or a bad check digit, 01; 14 for each item in both. Not eight digits: 01, and the items' own codes."""
    begin(2, ATUTAL, "barred 0, 15, 16 and 160; head banks barred and listed, barred and not, not eight digits, of other codes")
    barred(0, 15, 16, 160)
    second = change(starts(2)[2], (27, b"9"))
    for value in (*BARRED_BANKS, *NO_BANKS, *OTHER_BANKS, b"00000000", b"00000001", b"01500003"):
        message_case(2, [head_bank(value), second], 2)
    for value in (*BARRED_BANKS, *OTHER_BANKS):
        message_case(2, [head_bank(value)])
    comment("the same with a bank list of none, of one, of the head's bank alone")
    for banks in (b"", b"0061000009", b"0016000009"):
        line(b"B", banks)
        for value in BARRED_BANKS[:2]:
            message_case(2, [head_bank(value)])
    given()
    barred()


def bars_by_code():
    """A number stands for three digits: 5 for 005."""
    codes = (0, 5, 50, 55, 500, 505, 550, 999)
    begin(1, ATUTAL, "barred 5, then 0, 50, 500, 999 alone: banks of the codes 000, 005, 050, 055, 500, 505, 550, 999, each listed")
    banks_listed(codes)
    for code in (5, 0, 50, 500, 999):
        barred(code)
        for other in codes:
            message_case(1, [head_bank(bank_of(other))], 1)
    comment("the same banks: 999 passes, 1000 is refused with 15")
    for codes in ((999,), (1000,), (998, 999), (999, 1000)):
        barred(*codes)
        message_case(1, [head_bank(bank_of(999))], 1)
    given()
    barred()


def bars_by_halves():
    """Each entry of lists of many lengths, and codes beside them; then all codes, and all but the bank's."""
    base(records(1))
    for count in (1, 2, 3, 8, 9, 17):
        codes = [7 + 57 * k for k in range(count)]
        comment("one item, barred lists of %d: each entry, and the code after it" % count)
        banks_listed([*codes, *(code + 1 for code in codes)])
        barred(*codes)
        for code in codes:
            message_case(1, [head_bank(bank_of(code))], 1)
            message_case(1, [head_bank(bank_of(code + 1))], 1)
    some = (0, 1, 61, 62, 124, 125, 249, 250, 375, 499, 500, 501, 624, 750, 875, 936, 998, 999)
    comment("one item, all codes barred")
    banks_listed((*some, 159, 160, 161))
    barred(*CODES)
    for code in some:
        message_case(1, [head_bank(bank_of(code))], 1)
    comment("one item, all codes but 160 barred")
    barred(*CODES[:160], *CODES[161:])
    for code in (159, 160, 161, 0, 500, 999):
        message_case(1, [head_bank(bank_of(code))], 1)
    given()
    barred()


# Items of which each but the first has another T fault, in the order of 002 1.3.1: 0 39 32 16 37 61 63 62; an account of zeros in all but one.
T_VALUES = ((1, b"02"), (3, b"00000 "), (3, b"000004"), (17, b"0" * 10), (27, b"00000000"), (35, b"12345677        "), (51, b" " * 24), (145, b"0" * 35))


def bars_over_items():
    items = [with_value(item(k, 1000, b"0" * 16), value) for k, value in enumerate(T_VALUES, 1)]
    text = [head(), *items, b"03000008%016d" % 7000]
    comment("eight items: 0 39 32 16 37 61 63 62, an account of zeros in seven; barred: 00, 14 for each, none accepted, zero watch 0")
    base(text)
    for codes in ((160,), (161,)):
        barred(*codes)
        line(b"a", b"00008")
        for length in (8, 9, 7, 3, 0):
            message_case(8, [], length)
        message_case(8, [head_bank(b"16000016")], 8)
    comment("the same: replies of 624 bytes in just so many, and one byte short; read with a table one byte short")
    barred(160)
    for room in (624, 623):
        line(b"P", b"@ 0000009999 0000235959 %06d" % room)
        for length in (8, 7):
            line(b"w", b"%05d" % length)
    line(b"P", PARTICULARS)
    comment("the same: in each item a fault of the message, type 46 and amount 34, or a bad letter, 36; 14 stays for each")
    for k in range(1, 9):
        start = 176 + 251 * (k - 1)
        for value in ((1, b"01"), (17, b"000000100 "), (249, b"\x80")):
            message_case(8, [change(start, value)], 8)
    barred()


def bars_over_faults():
    """Ü faults keep their rank; 14 stays for each complete item before a break."""
    at = starts(3)
    begin(3, ATUTAL, "barred 123 and 160; each fault that has a code, alone and beside 01")
    barred(123, 160)
    for record, value in RANKED:
        message_case(3, [change(at[record], value)], 3)
        if value[0] != 35 or record:
            message_case(3, [change(at[record], value), head_bank(chance.of(BARRED_BANKS[1:]))], 3)
    begin(2, ATUTAL, "barred 160; breaks at every kind of place, alone or beside another fault")
    for found in break_changes(2)[:4] + break_changes(2)[5:]:
        other = chance.of(([], [], [field_change(2)], [head_bank(BARRED_BANKS[1])]))
        message_case(2, [found, *other], chance.of((2, 2, 3, 1)))
    barred()


def bars_of_beszed():
    """BESZED knows no bar, but a bad list is 15 there too."""
    at = starts(3)
    begin(3, BESZED, "barred 160: as without it")
    for codes in ((160,), ()):
        barred(*codes)
        line(b"a", b"00003")
        for record, value in [(0, (1, b"01")), *RANKED, *BESZED_RANKED]:
            if codes or value[0] in (1, 9, 35):
                message_case(3, [change(at[record], value)], 3)
        for value in BARRED_BANKS:
            message_case(3, [head_bank(value)], 3)
    comment("three items: positions 3-8 of the head decide, barred 160")
    barred(160)
    for value in (b"BESZED", b"BESZEd", b"ATUTAL", b"STATUS", b"bESZED", b" ESZED"):
        message_case(3, [change(0, (3, value))], 3)
        message_case(3, [change(0, (3, value)), change(at[2], (9, b"20200309"))], 3)
    comment("BESZED messages of 3 items: lists that are refused, 15")
    for codes in BAD_BARRED[:8]:
        barred(*codes)
        message_case(3, [])
    barred()


def bars_refused():
    """Every set of 1, 2, 3, 15, with 4, with 6, and with none; then in a reply every set of 15, 7, 8, 9."""
    for kind in KINDS:
        begin(2, kind, "1, 4, 2, 3, 15, 6 whole, 1, 4 and 2, 3, 15 by pieces, 1, 2, 3, 15 in a reply: every set of them")
        for chosen in range(2**4) if kind == ATUTAL else (8, 9, 10, 12, 0):
            given(20200230 if chosen & 1 else E, BAD_BANKS[0] if chosen & 2 else BANKS, BAD_KNOWN[0] if chosen & 4 else KNOWN)
            barred(*(chance.of(BAD_BARRED) if chosen & 8 else (160,)))
            for length in (2, 1, 10001):
                message_case(2, [], length)
            message_case(2, [(chance.of((0, 20, 100)), 9999, b"")], 2)
    given()
    begin(2, ATUTAL, "replies: every set of 15, 7, 8, 9; barred 160 where the list is right")
    for chosen in range(2**4):
        barred(*(chance.of(BAD_BARRED) if chosen & 1 else (160,)))
        line(b"P", (b"1" if chosen & 4 else b"0") + b" 0000000007 0000083000 %06d" % (103 if chosen & 8 else 234))
        line(b"w", b"00002" + written([change(0, (10, b"\x7f"))] if chosen & 2 else []))
    line(b"P", PARTICULARS)
    comment("numbers and id of wrong sizes: 15 by pieces comes before the closing's 99, else 99 first")
    for digits in WRONG_SIZES:
        sized(digits)
        for codes in ((160,), (160, 160)):
            barred(*codes)
            message_case(2, [], 2)
    sized()
    barred()


def bars_overflowing():
    for n in (1, 3):
        begin(n, ATUTAL, "barred 160; tables of every length around that: 6, with 14 in the bytes there are")
        barred(160)
        for length in (*range(n + 2), 10000, 10001):
            message_case(n, [], length)
            message_case(n, [head_bank(BARRED_BANKS[1])], length)
            message_case(n, [field_change(n), chance.of(break_changes(n))], length)
    barred()


def bars_cut():
    """Cut at each place, and by single bytes in and around the head's bank and its ending."""
    for n in (1, 2):
        begin(n, ATUTAL, "barred 160; cut at each place of the message, by single bytes at the head's bank and at its ending")
        barred(160)
        for value in (BARRED_BANKS[0], BARRED_BANKS[1], b"1600000 ", OTHER_BANKS[0]):
            line(b"a", b"%05d" % n + written([head_bank(value)]))
            for places in (range(33, 44), range(172, 179)):
                line(b"j", b"%05d " % n + lengths(list(places)) + written([head_bank(value)]))
        line(b"j", b"%05d 0001" % n)
        line(b"a", b"%05d" % (n - 1))
        for changes in ([change(174, (1, b"\n\r"))], [(starts(n)[1] + 249, 2, b"")], [change(0, (105, b"\x80"))], [(176, 9999, b"")], [(450, 9999, b"")]):
            line(b"a", b"%05d" % n + written(changes))
    barred()


ON, OFF = (160,), (159, 161)  # barred lists with the code of the head's bank and without it


def bars_by_pieces():
    """A session learns the bar with the last byte of the head's ending, from the list of that piece."""
    begin(2, ATUTAL, "one list up to a byte and another after it, with 160 and without, then the other way round")
    for cut in (0, 34, 37, 38, 42, 173, 174, 175, 176, 177, 300, 427, 678):
        for before, after in ((ON, OFF), (OFF, ON)):
            opened(2)
            for codes, first, last in ((before, 0, cut), (after, cut, 9999)):
                barred(*codes)
                taken(2, first, last)
            closed()
    comment("the same: a list for the bytes before the head's last, one for it and one after it, each with 160 and without")
    for chosen in range(2**3):
        opened(2)
        for k, (first, last) in enumerate(((0, 175), (175, 176), (176, 9999))):
            barred(*(ON if chosen >> k & 1 else OFF))
            taken(2, first, last)
        closed()
    comment("the same: empty pieces with another list before the head's last byte and after it; a wrong ending of the head")
    for first, second in ((ON, OFF), (OFF, ON)):
        opened(2)
        for codes, start, end in ((first, 0, 175), (second, 175, 175), (first, 175, 176), (second, 176, 176), (second, 176, 9999)):
            barred(*codes)
            taken(2, start, end)
        closed()
        opened(2)
        barred(*first)
        taken(2, 0, 200, [change(174, (1, b"\n\r"))])
        barred(*second)
        taken(2, 200, 9999)
        closed()
    bars_by_refused_pieces()
    barred()


def bars_by_refused_pieces():
    for kind in KINDS:
        begin(2, kind, "pieces refused with 15 before the head, at its last byte, after it and in the second item")
        for codes in BAD_BARRED[: 6 if kind == ATUTAL else 3]:
            opened(2)
            for wrong, right, first, last in ((codes, OFF, 0, 175), (codes, ON, 175, 176), (codes, OFF, 176, 450), (codes, (), 450, 9999)):
                barred(*wrong)
                taken(2, first, last)
                barred(*right)
                taken(2, first, last)
            barred(*codes)
            taken(2, 0, 9999)
            closed()
        comment("the same: pieces with every mistake at once, then one less each time: 5, 2, 3, 15, 4; barred 160 at last")
        for changes in ([], [head_bank(BARRED_BANKS[1])], [(300, 9999, b"")]):
            words = (b"00002" + written(changes), b"%08d" % E, b"".join(b"%010d" % bank for bank in BANKS), b"".join(KNOWN))
            unmoved(*words, b"0000000160")


# What a head told as bytes of a session, kind, bar and two zeros: in range, and not.
TOLD = ((0, 0, 0, 0), (0, 1, 0, 0), (1, 0, 0, 0))
NOT_TOLD = ((1, 1), (0, 2), (1, 2), (0, 255), (2, 0), (2, 1), (255, 0), (0, 0, 1), (0, 1, 1), (1, 0, 255), (0, 1, 0, 1), (0, 0, 0, 128))


def put_told(old, new):
    """What the head told in a session, where it is to be other bytes; zeros follow those that are named."""
    put(session.KIND, bytes(old).ljust(4, b"\0"), bytes(new).ljust(4, b"\0"))


def bars_put_in():
    """docs/SESSION.md: byte 8 is the kind, byte 9 the bar, 0 or 1, and 1 beside kind 0 alone. Items go by what stands there; before the head
    any gives way to what the head tells."""
    for kind, codes in ((ATUTAL, OFF), (ATUTAL, ON), (BESZED, ON)):
        text = records(2, kind)
        base([*text[:2], with_value(text[2], (9, b"20200309")), text[3]])  # the second item is refused in a BESZED
        barred(*codes)
        for cut in (100, 176, 300):
            list_name = "with" if codes == ON else "without"
            comment("two items of %s, a list %s 160, %d bytes read: kinds and bars put in; out of range: 5" % (kind.decode(), list_name, cut))
            own = (KINDS.index(kind), int(kind == ATUTAL and codes == ON), 0, 0) if cut >= 176 else TOLD[0]
            for told in TOLD:
                opened(2)
                taken(2, 0, cut)
                put_told(own, told)
                for wrong in NOT_TOLD if told == own else ():
                    put_told(told, wrong)
                    taken(2, cut, 9999)
                    closed()
                    put_told(wrong, told)
                taken(2, cut, cut)
                taken(2, cut, 9999)
                closed()
    bars_put_in_at_ends()
    barred()


def bars_put_in_at_ends():
    comment("two items, a bar put in: closed in the head, after a break of it, after it, in an overflow; a table of none or two")
    base(records(2))
    barred()
    for room, cut, changes in ((2, 0, []), (2, 100, []), (2, 200, [change(174, (1, b"\n\r"))]), (2, 176, []), (0, 678, []), (2, 427, [(425, 2, b"  ")])):
        for told in TOLD[1:]:
            opened(room)
            taken(room, 0, cut, changes)
            put_told(TOLD[0], told)
            taken(room, cut, cut, changes)
            closed()


def bars_elsewhere():
    """Single records, reading, and the slip know no bar and aren't lent the list."""
    comment("a single head and item, a STATUS, a slip: with barred 160, without a list, and with one that is refused elsewhere, the same")
    lists = ON, (), (160, 160)
    for record, value in zip(records(1), ((35, b"16000016"), (27, b"16000009"))):
        base([record], endings=False)
        for codes in lists:
            barred(*codes)
            single_case(1, [])
            single_case(1, [change(0, value)])
    base(reply([]))
    for codes in lists:
        barred(*codes)
        status_case(3, [])
    line(b"M", b"")
    line(b"-", b"%08d" % E)
    for bank in (b"16000009", b"61000009"):
        line(b"/", bank)
    for part in records(1):
        line(b"+", part)
    for codes in lists:
        barred(*codes)
        line(b"f", b"00008 00018 00000")
    barred()


def bars_large():
    comment("10,000 items, barred 160, in a full table: 00 and 14 for each; the reply in just so many bytes; one item more: 6, and 15 before it")
    for n in (10000, 10001):
        line(b"M", b"")
        line(b"+", head())
        line(b"*", b"%06d26+" % n + item(1, 9999999999, b"0" * 16))
        line(b"+", b"03%06d%016d" % (n, 9999999999 * n))
        line(b"P", b"0 0000000007 0000083000 650104")
        barred(160)
        line(b"j", b"10000 1000")
        if n > 10000:
            barred(160, 160)
            line(b"w", b"10000")
    line(b"P", PARTICULARS)
    barred()


def bars_at_chance(count):
    lists = ((160,), (0, 160, 999), (12, 123, 160, 441, 610, 990), (160, 610), (12, 441), (160, 160))
    for n in (1, 2, 3):
        begin(n, ATUTAL, "barred lists, head banks, values of fields and damage by chance")
        for k in range(count):
            if k % 4 == 0:
                barred(*chance.of(lists))
            bank = [head_bank(chance.of((*BARRED_BANKS, *OTHER_BANKS, *(b"%08d" % bank for bank in BANKS))))] * chance.under(2)
            other = chance.of(([field_change(n)], [field_change(n), field_change(n)], [damage(starts(n)[-1])]))
            message_case(n, [*bank, *other], chance.of((n, n, n, n + 1, n - 1)))
    barred()


def bars():
    bars_by_list()
    bars_by_bank()
    bars_by_code()
    bars_by_halves()
    bars_over_items()
    bars_over_faults()
    bars_of_beszed()
    bars_refused()
    bars_overflowing()
    bars_cut()
    bars_by_pieces()
    bars_put_in()
    bars_elsewhere()
    bars_large()
    bars_at_chance(24)


# The cases written by hand


def unmoved(rest, day, banks, known, barred):
    """Pieces with every mistake at once, then one less each time: 5, 2, 3, 15, 4; then the piece is taken as ever."""
    own, sign, changes = rest.partition(b"|")
    wrong, right = (b"%05d 0000 9999" % length + sign + changes for length in (int(own) - 1, int(own)))
    for letter, words in (
        *((b"E", b"00000000"), (b"o", own), (b"B", b"00000000020000000001"), (b"K", bytes(24)), (b"A", b"0000001000"), (b"t", wrong)),
        *((b"E", day), (b"o", own), (b"t", wrong)),
        *((b"B", banks), (b"t", wrong)),
        *((b"K", known), (b"t", wrong)),
        *((b"A", barred), (b"t", wrong)),
        *((b"t", right), (b"c", b"")),
    ):
        line(letter, words)


def alone_and_inside(number, start, end, rest):
    """The record between these places as a single one, and the message. Changes outside the record are the message's alone."""
    own = [change for change in rest[1:].split() if start <= int(change[:4]) < end]
    before = [b"0000%04d" % start] if start else []
    line(b"s", b"0000000001 %010d| " % number + b" ".join([*before, *own, b"%04d9999" % end]))
    line(b"j", b"00001 0000" + rest)


def hand_written():
    held, base_text = {b"A": b""}, b""
    for text in pathlib.Path(__file__).with_name("written").read_bytes().split(b"\n")[:-1]:
        letter, rest = text[:1], text[2:]
        held[letter] = rest
        if letter == b"u":
            unmoved(rest, held[b"E"], held[b"B"], held[b"K"], held[b"A"])
        elif letter == b"h":
            alone_and_inside(int(base_text[2:8] != BESZED), 0, 174, rest)
        elif letter == b"i":
            alone_and_inside(int(base_text[2:8] == BESZED), 176, 425, rest)
        else:
            line(letter, rest)
            if letter in b"M-/+*":
                base_text = script.built(base_text, letter, rest)


def main():
    signal.signal(signal.SIGPIPE, signal.SIG_DFL)  # where the reader stops, end
    comment("Cases of reference/cases.py. E 20200310, seven banks, two known identifiers, reply 0, 7, 083000")
    given()
    line(b"P", PARTICULARS)
    messages_alone()
    messages_broken(ATUTAL, 1, 2, 4)
    messages_in_pairs(ATUTAL, [], RANKED)
    messages_in_rank(80)
    messages_overflowing(ATUTAL, 1, 2, 3, 4, 5)
    messages_damaged(80)
    messages_given()
    messages_by_days()
    replies_by_particulars()
    singles(100)
    singles_given()
    statuses(40)
    calls_without_session()
    calls_of_wrong_size()
    calls_on_damaged_sessions(ATUTAL, (0, [], 3), (100, [], 3), (178, SECOND, 3), (700, SECOND, 5), (940, [], 3), (955, SECOND, 3))
    calls_after_refused_pieces(6, ATUTAL, 1, 2, 3, 4, 5)
    comment("BESZED")
    messages_alone(BESZED)
    messages_broken(BESZED, 2)
    messages_in_pairs(BESZED, RANKED, BESZED_RANKED)
    messages_in_rank(12, BESZED)
    messages_overflowing(BESZED, 1, 3)
    messages_damaged(16, BESZED)
    messages_by_due_dates()
    singles(16, BESZED)
    singles_of_any_kind()
    calls_on_damaged_sessions(BESZED, (100, [], 3), (178, SECOND, 3))
    calls_with_kinds_put_in()
    calls_after_refused_pieces(2, BESZED, 1, 3)
    for kind in KINDS:
        halves(kind)
    comment("Cover answers: FEDJEL and FEDSTA")
    covers()
    comment("Barred banks")
    bars()
    hand_written()


if __name__ == "__main__":
    main()
