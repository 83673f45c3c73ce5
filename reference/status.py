"""The STATUS message, by definition: the reply to a message, and a STATUS read.

Written from documents 01 and 02 and the standard 002, sections 3.1 to 3.3, alone, not
from the code that is held to it. The verdict is that of message.py. E, number,
time and lengths are numbers, the duplicate code is a byte, the bank list and the
barred list are lists of numbers; messages and the known list are bytes.
"""

from collections import namedtuple
from functools import partial

import leaves
import message
from leaves import all_digits
from rules import at

# 01 "Records": lengths without the ending.
HEAD, REFERENCE, FOOT = 54, 63, 46
DUPLICATE_CODES = b"0@"  # 01, refusal 8

# 01 "Calls and their answers": what a STATUS says.
Facts = namedtuple(
    "Facts",
    "duplicate identifier date number time code accepted accepted_sum refused refused_sum references",
)
NO_FACTS = Facts(0, message.NO_IDENTIFIER, 0, 0, 0, 0, 0, 0, 0, 0, 0)


def is_address(field):
    """01, refusal 7: every byte of positions 10-34 is 20h to 7Eh."""
    return all(0x20 <= byte <= 0x7E for byte in field)


# The reply


def is_time(time):
    """01, refusal 8: 000000 to 235959 by hours, minutes, seconds."""
    text = b"%06d" % time
    return len(text) == 6 and text[:2] <= b"23" and text[2:4] <= b"59" and text[4:] <= b"59"


def references(text, codes):
    """002 3.3: one record for each item, in order, with its place and its code.

    T223 (11-39) is spaces; T224 (40-63) is the item's positions 51-74.
    """
    judged = zip(message.cut(text)[1], codes)
    return [b"02%06d%02d" % (k, code) + b" " * 29 + at(item, 51, 74) for k, (item, code) in enumerate(judged, 1)]


def reply(text, day, banks, known, barred, duplicate, number, time, room):
    """("refused", n), or the reply's bytes.

    01 "Calls and their answers" and 02 #105: refusals 1, 2, 3, 15, 6, 7, 8, 9 in this
    order. The verdict is that of a table of 10,000 bytes, which is never refused itself.
    With a code other than 00 there are no references, and the numbers are 0.
    """
    table = bytes(message.LONGEST_TABLE)
    refused, code, numbers, _, _, codes = message.judge(text, day, banks, known, barred, table)
    address = at(text, 10, 34)
    if refused:
        return "refused", refused
    if len(text) < 34 or not is_address(address):
        return "refused", 7
    if duplicate not in DUPLICATE_CODES or number > 9999 or not is_time(time):
        return "refused", 8
    head = b"01STATUS%c" % duplicate + address + b"%08d%04d%06d%02d" % (day, number, time, code)
    foot = b"03%06d%016d%06d%016d" % numbers[:4]
    records = [head, *([] if code else references(text, codes)), foot]
    written = b"".join(record + message.ENDING for record in records)
    return ("refused", 9) if room < len(written) else written


# Reading


def cut(text):
    """01 "Records": the head, the references and the foot, without their endings.

    None where a length or an ending is wrong, or the foot isn't last. A record
    after the head that begins 02 is a reference; any other is to be the foot.
    """
    head = message.record(text, 0, HEAD)
    items, start = [], HEAD + 2
    while text[start : start + 2] == b"02":
        items.append(message.record(text, start, REFERENCE))
        start += REFERENCE + 2
    foot = message.record(text, start, FOOT)
    whole = len(text) == start + FOOT + 2
    return (head, items, foot) if whole and None not in (head, *items, foot) else None


def is_head(head):
    """002 3.1; 01: digits except in the duplicate code and positions 10-34."""
    f = partial(at, head)
    marks = f(1, 2) == b"01" and f(3, 8) == b"STATUS" and f(9, 9) in (b"0", b"@")
    return marks and is_address(f(10, 34)) and all_digits(f(35, 54))


def is_reference(reference, k):
    """002 3.3; 01: each carries its place. T223 and T224 aren't typed N."""
    place, code = at(reference, 3, 8), at(reference, 9, 10)
    return at(reference, 1, 2) == b"02" and place == b"%06d" % k and all_digits(code)


def is_foot(foot):
    """002 3.2: every field is typed N."""
    return at(foot, 1, 2) == b"03" and all_digits(at(foot, 3, 46))


def numbers(record, *fields):
    """The numbers in these fields, each with its first and last position."""
    return [leaves.number(at(record, first, last)) for first, last in fields]


def is_counted(facts, codes):
    """01 "Calls and their answers": the foot's counts equal the references with
    and without code 00. With code 00 there is at least one, otherwise none and a
    zero foot."""
    good = sum(code == 0 for code in codes)
    if facts.accepted != good or facts.refused != len(codes) - good:
        return False
    if facts.code == 0:
        return len(codes) > 0
    return len(codes) == facts.accepted_sum == facts.refused_sum == 0


def said(text):
    """What a STATUS says and its references' codes, None where it is none."""
    records = cut(text)
    if records is None:
        return None
    head, items, foot = records
    right = is_head(head) and all(is_reference(item, k) for k, item in enumerate(items, 1)) and is_foot(foot)
    if not right:
        return None
    codes = bytes(leaves.number(at(item, 9, 10)) for item in items)
    opening = numbers(head, (35, 42), (43, 46), (47, 52), (53, 54))
    closing = numbers(foot, (3, 8), (9, 24), (25, 30), (31, 46))
    facts = Facts(head[8], at(head, 10, 34), *opening, *closing, len(items))
    return (facts, codes) if is_counted(facts, codes) else None


def read(text, table_length):
    """("refused", n), or what the STATUS says and its references' codes.

    01 "Calls and their answers": refusals 10, 9 in this order.
    """
    answer = said(text)
    if answer is None:
        return "refused", 10
    return ("refused", 9) if table_length < len(answer[1]) else answer
