"""What the slip program prints, by definition.

Written from documents 01 and 02 alone, not from the code that is held to it. The three
files and the message are bytes; a missing file is an empty one (01 "Examples").
"""

import leaves
import message
import rules

# 01 "Examples": a file over 25,000 bytes is refused.
LONGEST_FILE = 25000

# 02 #101: the words of the first line.
KINDS = {rules.ATUTAL: b"ATUTAL", rules.BESZED: b"BESZED"}


# The files


def day_in(file):
    """01 "Examples": eight digits, and "refusals" 1: a date. None where it isn't."""
    return None if leaves.date(file) is None else int(file)


def banks_in(file):
    """01 "Examples": eight digits and 0Ah each; "The job": strictly ascending. None where they aren't."""
    *lines, rest = file.split(b"\n")
    if len(file) > LONGEST_FILE or rest != b"":
        return None
    if not all(len(line) == 8 and line.isdigit() for line in lines):
        return None
    banks = tuple(map(int, lines))
    return banks if leaves.bank_list(0, banks)[0] else None


def is_known(file):
    """01 "The job": identifiers of 25 bytes, end to end."""
    return len(file) <= LONGEST_FILE and leaves.known_list(b"", file)[0]


# The slip


def refused(number):
    """01 "Examples": REFUSAL and its number alone."""
    return b"REFUSAL %d\n" % number


def slip(day_file, banks_file, known, text):
    """01 "Examples" and 02 #101: what the program prints. The files are judged in their order, before the message. The barred list is
    empty (02 #105)."""
    day, banks = day_in(day_file), banks_in(banks_file)
    if day is None:
        return refused(1)
    if banks is None:
        return refused(2)
    if not is_known(known):
        return refused(3)
    table = bytes(message.LONGEST_TABLE)
    refusal, code, numbers, kind, _, _ = message.judge(text, day, banks, known, (), table)
    if refusal:
        return refused(refusal)
    return b"KIND %s\nMESSAGE %02d\nACCEPTED %d %d\nREFUSED %d %d\nZERO %d\n" % (KINDS[kind], code, *numbers)
