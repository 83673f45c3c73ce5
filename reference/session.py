"""A session as a host in C keeps it, by definition.

Written from docs/SESSION.md and include/nshanvekh.h alone, not from the code that
is held to them. A session is worked out anew from all that it has read: nothing
here goes from piece to piece. E is a number, the bank list and the barred list are
lists of numbers; the message, the known list and the session are bytes.
"""

import message
import rules
from message import LONGEST_TABLE

SIZE = 344
KIND, BAR, HELD = 8, 9, 93  # the places of what the head told, kind and bar, and of the bytes held
MOST_AMOUNT = 9999999999  # 01 "Records": ten digits
MOST_KINDS = {0: rules.BESZED, 1: rules.ATUTAL}  # the greatest kind without a bar and with one: only ATUTAL knows it (02 #105)
CLOSED = bytes([1, 5]).ljust(SIZE, b"\0")  # phase 5; only that it is refused counts here


def record_size(phase, begun):
    """The length, with its ending, of the record that begins so (01 "Records", cutting)."""
    if phase == 0:
        return rules.HEAD + 2
    return rules.FOOT + 2 if begun[:2] == b"03" else rules.ITEM + 2


def phase_of(head, items, foot, begun, room):
    """0 in the head, 1 after it, 2 the foot is read, 3 broken, 4 overflow."""
    if len(items) > room:
        return 4
    if foot is not None:
        return 2
    phase = 0 if head is None else 1
    return phase if len(begun) < record_size(phase, begun) else 3


def of(read, room, day, banks, known, barred, told=None):
    """The bytes of the session that has read these bytes, for a table of so many. A kind and a bar that are told as in message.judge."""
    head, items, foot = message.cut(read)
    begun = read if head is None else read[176 + 251 * len(items) :]
    told = rules.told_by(head, barred) if told is None else told
    judged = [rules.judge_item(item, k, day, banks, told) for k, item in enumerate(items[:room], 1)]
    accepted, accepted_sum, refused, refused_sum, zeros = message.numbers(judged)
    phase = phase_of(head, items, foot, begun, room)
    found = [rules.judge_head(head, day, banks, known)] if head is not None else []
    found += judged
    letter = any(record[0] for record in found)
    codes = [record[1] for record in found]
    if phase == 2:
        codes.append(rules.judge_foot(foot, len(items), accepted_sum + refused_sum))
    held = begun if phase < 2 else b""
    numbers = (room, accepted, accepted_sum, refused, refused_sum, zeros, len(held))
    marks = bytes([1, phase, letter, next((code for code in codes if code), 0)])
    short = day.to_bytes(4, "little") + bytes([told.kind, told.barred, 0, 0])
    fields = b"".join(number.to_bytes(8, "little") for number in numbers)
    return marks + short + fields + message.identifier(head) + held.ljust(251, b"\0")


def told_in(session):
    """What the head told, as the session keeps it."""
    return rules.Told(session[KIND], session[BAR] == 1)


def is_open(session):
    """The bytes are those of a session, open, with each number in its range."""
    mark, phase, letter, code = session[:4]
    day, kind, bar, zeros_after = int.from_bytes(session[4:8], "little"), session[KIND], session[BAR], session[10:12]
    numbers = [int.from_bytes(session[place : place + 8], "little") for place in range(12, 68, 8)]
    room, accepted, accepted_sum, refused, refused_sum, zeros, fill = numbers
    begun = session[HELD : HELD + fill]
    return (
        mark == 1
        and phase <= 4
        and letter <= 1
        and code <= 99
        and bar in MOST_KINDS
        and kind <= MOST_KINDS[bar]
        and zeros_after == bytes(2)
        and rules.clearing_day(day) is not None
        and room <= LONGEST_TABLE
        and accepted + refused <= room
        and accepted_sum <= MOST_AMOUNT * accepted
        and refused_sum <= MOST_AMOUNT * refused
        and zeros <= accepted
        and (fill < record_size(phase, begun) if phase <= 1 else fill == 0)
    )
