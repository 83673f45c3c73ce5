"""Expected answers of the small functions: digits, calendar, text, lists; and of the foot's rules.

    python3 reference/leaves.py < crates/leaves/stdin

Written from documents 01 and 02 and the standard 002 alone, not from the code
that is held to it. Each input line is a command letter, a space and the rest as raw
bytes; each output line is the input line, a tab and the answers, each after a
space. In the input, a `t` line that starts with ## is a heading: it says what the
lines after it try, and is itself tried as text. An account is 0 good, 1 or 2 where its
first or its last eight have a wrong form, 3 or 4 where its check digit over eight or
over sixteen is wrong; a date field is 1 and the day's number, 2 not digits, 3 no date.
"""

import datetime
import itertools
import sys

sys.dont_write_bytecode = True  # no folder of compiled files beside the sources

# 002 annex 11 and 01 "Faults of the whole message" 2: the letters by name.
# Python's own code page 852 turns bytes into letters; 01's bytes are the same.
LETTERS = "áéíóöőúüűÁÉÍÓÖŐÚÜŰ"
BYTES = bytes.fromhex("81828A8B9094999AA0A1A2A3B5D6E0E9EBFB")
assert sorted(BYTES.decode("cp852")) == sorted(LETTERS)

# 002 annex 2, in its order.
PURPOSES = """
    BEB BEE BET BKB BKK BLV BNY BEO BGC BGK BGX BGY MUN CSP ETK GYD
    GYS ILK TID TPZ MHL MGY MBD ELL EGS NYP UGY MNJ NYG NOE NOK NME
    NMK NGY CST DIJ FUJ FUT GAZ KEM KTS LBR MVZ SZE THO VIL
""".encode().split()
assert len(set(PURPOSES)) == 46


# Digits


def all_digits(field):
    """Every byte is 30h to 39h; an empty field has no other byte."""
    return field == b"" or field.isdigit()


def number(field):
    """The number of at most sixteen digits (01 "Records": the widest is the sum)."""
    return int(field) if field.isdigit() and len(field) <= 16 else 0


def weighted(field, weights):
    """All digits, and the sum with the weights repeated is a multiple of ten."""
    if not all_digits(field):
        return False
    total = sum(w * int(chr(b)) for w, b in zip(itertools.cycle(weights), field))
    return total % 10 == 0


def check_digit(field):
    """01 "Digits and dates"; 002 annex 6, first half."""
    return weighted(field, (9, 7, 3, 1))


def ean13(field):
    """01 "Digits and dates", initiator; 002 annex 6, second half."""
    return len(field) == 13 and weighted(field, (1, 3))


def account_digits(field):
    """The digits of a well formed account, or None.

    01 "Digits and dates": sixteen digits, or eight digits and eight spaces.
    002 section 1.1, field F215.2: eight digits stand to the left.
    """
    if len(field) != 16:
        return None
    digits = field[:8] if field[8:] == b" " * 8 else field
    return digits if all_digits(digits) else None


# 02 #102: what an account is found to be; in the order of its table, good first.
ACCOUNTS = GOOD, FORM_OF_FIRST_EIGHT, FORM_OF_LAST_EIGHT, CHECK_DIGIT_OVER_EIGHT, CHECK_DIGIT_OVER_SIXTEEN = (
    b"good",
    b"form-of-first-eight",
    b"form-of-last-eight",
    b"check-digit-over-eight",
    b"check-digit-over-sixteen",
)


def account(field):
    """02 #102: which half is wrong, the first where both have a wrong form. Bytes of another length have no first eight."""
    first, last = field[:8], field[8:]
    if len(field) != 16 or not all_digits(first):
        return FORM_OF_FIRST_EIGHT
    if last == b" " * 8:
        return GOOD if check_digit(first) else CHECK_DIGIT_OVER_EIGHT
    if not all_digits(last):
        return FORM_OF_LAST_EIGHT
    return GOOD if check_digit(field) else CHECK_DIGIT_OVER_SIXTEEN


def is_account(field):
    """01 "Digits and dates": an account is good or it isn't; 02 #102 leaves that as it was."""
    digits = account_digits(field)
    return digits is not None and check_digit(digits)


def account_zero(field):
    """01 "Calls and their answers": the zero watch."""
    digits = account_digits(field)
    return digits is not None and set(digits) == set(b"0")


def write_number(width, value, out):
    """Leading zeros in the first bytes (01 "Records"); the other bytes stay."""
    if len(out) < width or value >= 10**width:
        return [False, out]
    written = str(value).rjust(width, "0").encode() if width > 0 else b""
    return [True, written + out[width:]]


# Text


def put(text, out):
    """The text over the first bytes, where there is room; the other bytes stay."""
    return [True, text + out[len(text) :]] if len(text) <= len(out) else [False, out]


PLAIN = bytes(range(0x20, 0x7F))


def is_text(field):
    """01 "Faults of the whole message" 2; 002 annex 11: nothing is left without the bytes that may stand in text."""
    return field.translate(None, PLAIN + BYTES) == b""


def only(field, allowed):
    """01 name "all spaces"; 002 section 1.3.1 note 3 "spaces and/or zeros"."""
    return field.strip(allowed) == b""


# Calendar


def date(field):
    """01 "Digits and dates": Gregorian, years 0001 to 9999, as Python's dates."""
    if len(field) != 8 or not all_digits(field):
        return None
    try:
        return datetime.date(int(field[:4]), int(field[4:6]), int(field[6:]))
    except ValueError:
        return None


def date_field(field):
    """01 "Calls and their answers": not digits comes before no date."""
    day = date(field)
    if day is not None:
        return [1, day.toordinal()]
    return [3 if len(field) == 8 and all_digits(field) else 2]


def due(first, last):
    """02 #101; 002 section 2.3.1 note 1: not before E, and at most eight workdays later.

    Stepped day by day from E, which isn't counted, to the day asked for: a step
    that starts on the eighth workday goes too far. Saturday and Sunday, the
    weekdays 5 and 6, are no workdays. No date comes after 99991231, so no step does.
    """
    day, workdays = first, 0
    while day < last and workdays < 8:
        day += datetime.timedelta(days=1)
        workdays += day.weekday() < 5
    return day == last


def window(first, last, days):
    """01 "Faults of the whole message" 3, date; 002 section 1.1.1 notes 2 and 4. Last, whether the second is a due date, E the first."""
    first, last = date(first), date(last)
    if first is None or last is None:
        return [False, False, False]
    return [0 <= (last - first).days <= days, first < last, due(first, last)]


# Lists


def bank_list(code, banks):
    """01 "The job" and refusal 2; membership is promised for ascending lists."""
    ascending = list(banks) == sorted(set(banks))
    right = ascending and all(bank <= 99999999 for bank in banks)
    return [right, code in banks if ascending else b"-"]


def barred_list(barred):
    """02 #105 and refusal 15: strictly ascending, and no number over three digits."""
    return all(a < b for a, b in zip(barred, barred[1:])) and all(code <= 999 for code in barred)


def known_list(identifier, known):
    """01 "The job" and refusal 3: identifiers of 25 bytes, end to end.

    A last entry of under 25 bytes equals no identifier.
    """
    entries = [known[i : i + 25] for i in range(0, len(known), 25)]
    return [len(known) % 25 == 0, identifier in entries]


# Lines


def answers(command, rest):
    """The answers to one line, as truth values, numbers and bytes."""
    if command == b"d":
        return [all_digits(rest), number(rest)]
    if command == b"c":
        return [check_digit(rest)]
    if command == b"e":
        return [ean13(rest)]
    if command == b"a":
        assert is_account(rest) == (account(rest) == GOOD)
        return [ACCOUNTS.index(account(rest)), account_zero(rest)]
    if command == b"n":
        return write_number(int(rest[:2]), int(rest[2:22]), rest[22:])
    if command == b"x":
        count = 2 + int(rest[:2])
        return put(rest[2:count], rest[count:])
    if command == b"t":
        return [is_text(rest), all(0x20 <= b <= 0x7E for b in rest), only(rest, b" "), only(rest, b" 0")]
    if command == b"T":
        return (is_text(bytes([byte])) for byte in range(256))
    if command == b"f":
        return date_field(rest)
    if command == b"w":
        return window(rest[:8], rest[8:16], int(rest[16:]))
    if command == b"b":
        numbers = [int(rest[i : i + 10]) for i in range(0, len(rest), 10)]
        return bank_list(numbers[0], numbers[1:])
    if command == b"A":
        return [barred_list([int(rest[i : i + 10]) for i in range(0, len(rest), 10)])]
    if command == b"k":
        return known_list(rest[:25], rest[25:])
    if command == b"p":
        return [rest in PURPOSES]
    if command == b"z":
        import rules  # which stands on this file

        return [rules.judge_foot(rest[26:], int(rest[:10]), int(rest[10:26]))]
    raise ValueError(command)


def printed(answer):
    """Yes is 1, no is 0; numbers are decimal without leading zeros."""
    return answer if isinstance(answer, bytes) else str(int(answer)).encode()


def main():
    for line in sys.stdin.buffer:
        line = line.removesuffix(b"\n")
        given = answers(line[:1], line[2:])
        sys.stdout.buffer.write(line + b"\t" + b"".join(b" " + printed(answer) for answer in given) + b"\n")


if __name__ == "__main__":
    main()
