"""Expected output of the program `view`, which shows a message record by record.

    python3 reference/view.py crates/view/data < crates/view/stdin
    python3 reference/view.py crates/view/data faults < reference/faulty

The folder holds the files `day`, `banks` and `known`. With the word `faults` the
records without a fault, a watch or a break are left out. Beside crates/view/stdin two
messages are shown: `faulty`, an ATUTAL, and `debited`, a BESZED. Written from documents 01
and 02 and docs/CODES.md, not from the code that is held to it. The rules of the fields
are in rules.py, the cutting and the verdict in message.py; here is what is said
of them, in words. The barred list is empty (02 #105).
"""

import os
import sys

sys.dont_write_bytecode = True  # no folder of compiled files beside the sources

import message
import rules
from leaves import all_digits, date

MOST_IN_FILE = 25000  # 01, the slip program
LONGEST = 176 + 10000 * 251 + 26  # 10,000 items

# 01 "Records".
HEAD_FIELDS = (
    ("type", 1, 2),
    ("message type", 3, 8),
    ("duplicate code", 9, 9),
    ("initiator", 10, 22),
    ("date", 23, 30),
    ("number", 31, 34),
    ("bank", 35, 42),
    ("account", 43, 58),
    ("debit date", 59, 66),
    ("purpose", 67, 69),
    ("name", 70, 104),
    ("remark", 105, 174),
)
ITEM_FIELDS = (
    ("type", 1, 2),
    ("item number", 3, 8),
    ("credit date", 9, 16),
    ("amount", 17, 26),
    ("bank", 27, 34),
    ("account", 35, 50),
    ("customer id", 51, 74),
    ("name", 75, 109),
    ("address", 110, 144),
    ("account owner", 145, 179),
    ("remark", 180, 249),
)
FOOT_FIELDS = (("type", 1, 2), ("item count", 3, 8), ("sum", 9, 24))

# 002 2.1 and 2.3: the fields of ATUTAL that have another name in a BESZED.
BESZED_NAMES = {"debit date": "notification date", "credit date": "due date"}

# 01 "Faults of the whole message" 2: the letters above 7Eh that text may hold.
LETTERS = bytes.fromhex("81828A8B9094999AA0A1A2A3B5D6E0E9EBFB")

# The fields of rules.py that have another name in 01 "Records".
NAMES = {"owner": "account owner"}

# 01 "Calls and their answers" and 02 #102, the kinds. An account's tell a clerk which characters to retype; the bank stands before them.
KINDS = {
    rules.LETTER: "a letter that text may not hold",
    rules.MARK: "not the right mark",
    rules.FORM: "wrong form",
    rules.NOT_DIGITS: "not digits",
    rules.CHECK_DIGIT: "check digit",
    rules.NO_DATE: "no date",
    rules.OUTSIDE_DAYS: "outside the days",
    rules.NOT_LISTED: "not listed",
    rules.KNOWN: "already known",
    rules.BLANK_OR_ZERO: "blank or zero",
    rules.OUT_OF_ORDER: "out of order",
    rules.OTHER: "more than ten days after the date",
    rules.FORM_OF_FIRST_EIGHT: "wrong form in the first eight, retype the eight characters after the bank",
    rules.FORM_OF_LAST_EIGHT: "wrong form in the last eight, retype the last eight characters",
    rules.CHECK_DIGIT_OVER_EIGHT: "check digit over eight, retype the eight characters after the bank",
    rules.CHECK_DIGIT_OVER_SIXTEEN: "check digit over sixteen, retype the sixteen characters after the bank",
}

# docs/CODES.md: what each code is given for.
MEANINGS = {
    0: "no fault",
    1: "head, bank",
    2: "head, number",
    7: "head, debit date",
    9: "head, message type",
    16: "item, amount is zero",
    18: "foot, item count",
    19: "foot, sum",
    26: "break, the records can't be cut",
    29: "head, identifier already known",
    32: "item, number out of order",
    33: "item, due date",
    34: "item, amount is not digits",
    36: "a letter that text may not hold",
    37: "item, bank",
    39: "item, number is not digits",
    41: "head, type",
    42: "head, duplicate code",
    43: "head, initiator or name",
    44: "head, date",
    45: "head, account",
    46: "item, type",
    48: "head, purpose",
    61: "item, account",
    62: "item, account owner",
    63: "item, customer id",
}


# The three files


def content(folder, name):
    """01, the slip program: a missing file counts as empty."""
    try:
        with open(os.path.join(folder, name), "rb") as file:
            return file.read()
    except OSError:
        return b""


def bank_numbers(data):
    """The numbers of `banks`: lines of eight digits and 0Ah; None for other content."""
    lines = [data[i : i + 9] for i in range(0, len(data), 9)]
    if len(data) > MOST_IN_FILE or not all(len(s) == 9 and all_digits(s[:8]) and s[8:] == b"\n" for s in lines):
        return None
    return [int(s[:8]) for s in lines]


def files(folder):
    """(refusal or 0, E, bank list, known list)."""
    day, banks, known = content(folder, "day"), bank_numbers(content(folder, "banks")), content(folder, "known")
    if len(day) != 8 or not all_digits(day) or date(day) is None:
        return 1, 0, [], b""
    if banks is None or any(a >= b for a, b in zip(banks, banks[1:])):
        return 2, 0, [], b""
    if len(known) > MOST_IN_FILE or len(known) % 25:
        return 3, 0, [], b""
    return 0, int(day), banks, known


# Fields


def shown(byte):
    """A byte in UTF-8: text as code page 852 has it, other bytes and the backslash as a mark."""
    if byte in LETTERS or (0x20 <= byte <= 0x7E and byte != 0x5C):
        return bytes([byte]).decode("cp852")
    return "\\x%02X" % byte


def field_line(record, name, first, last):
    field = rules.at(record, first, last)
    text = field.rstrip(b" ")
    place = str(first) if first == last else "%d-%d" % (first, last)
    if not text:
        return "  %s (%s): blank" % (name, place)
    spaces = len(field) - len(text)
    after = " and %d spaces" % spaces if spaces else ""
    return '  %s (%s): "%s"%s' % (name, place, "".join(map(shown, text)), after)


def field_lines(record, fields, kind):
    names = BESZED_NAMES if kind == rules.BESZED else {}
    return [field_line(record, names.get(name, name), first, last) for name, first, last in fields]


# Answers


def refused(code, whole):
    return "(code %02d, %s is refused)" % (code, "the message" if whole else "this item")


def fault_lines(found):
    """Of the faults of a record, (field, kind, code, whole) in the order of the single answer: the first one with
    its field and kind, then the first code of each other sort: bad letter, whole message, item."""
    if not found:
        return ["  no fault"]
    field, kind, code, whole = found[0]
    name = field.decode().replace("-", " ")
    lines = ["  FAULT %s: %s %s" % (NAMES.get(name, name), KINDS[kind], refused(code, whole))]
    sort = lambda f: (f[1] == rules.LETTER, f[3])
    for wanted in ((False, True), (False, False)):
        if sort(found[0]) != wanted:
            lines += ["  ALSO %s %s" % (MEANINGS[f[2]], refused(f[2], f[3])) for f in found if sort(f) == wanted][:1]
    return lines


def letters(record, text):
    return [(field, rules.LETTER, message.BAD_LETTER, True) for field in rules.bad_letters(record, text)]


def head_faults(record, day, banks, known):
    rows = rules.head_fields(record, day, banks, known)
    return letters(record, rules.HEAD_TEXT) + [(field, kind, code, True) for field, code, kind in rows if kind]


def item_faults(record, k, day, banks, kind):
    found = letters(record, rules.ITEM_TEXT)
    for row in rules.item_fields(record, k, day, banks, kind):
        if row in rules.MESSAGE_CODES:
            found.append(row + (rules.MESSAGE_CODES[row], True))
        elif row in rules.ITEM_CODES:
            found.append(row + (rules.ITEM_CODES[row], False))
    return found


# Records


def head_lines(record, day, banks, known, kind):
    return field_lines(record, HEAD_FIELDS, kind) + fault_lines(head_faults(record, day, banks, known))


def item_lines(record, k, day, banks, kind):
    lines = field_lines(record, ITEM_FIELDS, kind) + fault_lines(item_faults(record, k, day, banks, kind))
    _, _, code, _, zero = rules.judge_item(record, k, day, banks, rules.Told(kind, False))
    return lines + ["  WATCH account is all zeros"] * (zero == 1 and code == 0)


def foot_lines(record, count, total, kind):
    lines = field_lines(record, FOOT_FIELDS, kind) + ["  the items give count %d and sum %d" % (count, total)]
    code = rules.judge_foot(record, count, total)
    if code == 0:
        return lines + ["  no fault"]
    field = {18: "item count", 19: "sum"}[code]
    return lines + ["  FAULT %s: not what the items give %s" % (field, refused(code, True))]


def break_line(data, start, items):
    """01 "Records": what breaks the cutting at the place where the record after so many items begins."""
    rest = data[start:]
    foot = start > 0 and rest[:2] == b"03"
    name = "the head" if start == 0 else "the foot" if foot else "item %d" % (items + 1)
    length = rules.HEAD if start == 0 else rules.FOOT if foot else rules.ITEM
    end = start + length
    if not rest:
        place, what = start, "the message ends here, expected %s%s" % (name, " or the foot" if items else "")
    elif foot and items == 0:
        place, what = start, "the foot stands here, expected item 1"
    elif len(data) < end + 2:
        place, what = len(data), "the message ends inside %s, expected bytes up to %d" % (name, end + 2)
    elif data[end : end + 2] != message.ENDING:
        place, what = end, "expected the ending 0Dh 0Ah of %s" % name
    else:
        place, what = end + 2, "expected the end of the message after the foot"
    return "  BREAK at byte %d: %s" % (place + 1, what)


# What the lines begin with that make a record one with a fault, a watch or a break.
TOLD = ("  FAULT ", "  WATCH ", "  BREAK ")


def record_lines(data, day, banks, known, only):
    """Each record in order, with its number and place; the break, where there is one, is the last. Or only those that
    have something to tell."""
    head, items, foot = message.cut(data)
    kind = rules.message_kind(head)
    shown_records = []
    if head is not None:
        shown_records.append(("head", head_lines(head, day, banks, known, kind)))
    for k, item in enumerate(items, 1):
        shown_records.append(("item %d" % k, item_lines(item, k, day, banks, kind)))
    starts = [0] + [176 + 251 * k for k in range(len(items) + 1)]
    if foot is None:
        shown_records.append(("break", [break_line(data, starts[len(shown_records)], len(items))]))
    else:
        shown_records.append(("foot", foot_lines(foot, len(items), sum(map(rules.item_amount, items)), kind)))
    lines = []
    for n, (start, (name, below)) in enumerate(zip(starts, shown_records), 1):
        if not only or any(line.startswith(TOLD) for line in below):
            lines += ["RECORD %d at byte %d: %s" % (n, start + 1, name)] + below
    return lines


def verdict_lines(data, day, banks, known):
    _, code, numbers, _, _, _ = message.judge(data, day, banks, known, (), bytes(message.LONGEST_TABLE))
    answer = "refused" if code else "accepted"
    return [
        "VERDICT code %02d: %s, the message is %s" % (code, MEANINGS[code], answer),
        "  accepted items: %d, sum %d" % numbers[0:2],
        "  refused items: %d, sum %d" % numbers[2:4],
        "  zero watch: %d" % numbers[4],
    ]


def view(folder, read, only=False):
    """All that the program prints; the message isn't read where a file is refused."""
    refusal, day, banks, known = files(folder)
    if refusal:
        return ["REFUSAL %d" % refusal]
    data = read()
    if len(data) > LONGEST:
        return ["MESSAGE TOO LONG: over 2510202 bytes, the length of 10000 items; nothing is shown"]
    return record_lines(data, day, banks, known, only) + verdict_lines(data, day, banks, known)


if __name__ == "__main__":
    for line in view(sys.argv[1] if len(sys.argv) > 1 else ".", sys.stdin.buffer.read, sys.argv[2:] == ["faults"]):
        sys.stdout.buffer.write(line.encode() + b"\n")
