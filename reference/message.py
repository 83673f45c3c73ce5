"""Judging a whole message, by definition.

Written from documents 01 and 02 and the standard 002 alone, not from the code that
is held to it. The message is taken whole: nothing here knows of pieces. E is a
number, the bank list and the barred list are lists of numbers; the message, the
known list and the code table are bytes. The rules of the fields are in rules.py.
"""

from functools import lru_cache

import rules
from rules import BREAK, FOOT, HEAD, ITEM

# 01 "Records": every record ends with 0Dh 0Ah.
ENDING = b"\r\n"
BAD_LETTER = 36  # 01 "Faults of the whole message" 2
LONGEST_TABLE = 10000  # 01 "Calls and their answers"
NO_IDENTIFIER = b" " * 25


# Cutting


def record(message, start, length):
    """01 "Records": the record at this place, without its ending.

    None where the message ends inside it, or its ending is wrong or missing.
    """
    end = start + length
    return message[start:end] if message[end : end + 2] == ENDING else None


def cut(message):
    """01 "Records", cutting: the head, the complete items before any break, the foot.

    The head is None where it isn't complete. The foot is None exactly when the
    message has a break.
    """
    head = record(message, 0, HEAD)
    if head is None:
        return None, [], None
    items, start = [], HEAD + 2
    while message[start : start + 2] != b"03":
        item = record(message, start, ITEM)
        if item is None:
            return head, items, None
        items.append(item)
        start += ITEM + 2
    foot = record(message, start, FOOT)
    if items == [] or len(message) > start + FOOT + 2:
        return head, items, None
    return head, items, foot


# The parts of the answer


@lru_cache(maxsize=None)
def judge_item(record, k, day, banks, told):
    """rules.judge_item; the same item comes in many messages, and is judged once."""
    return rules.judge_item(record, k, day, banks, told)


def verdict(head, items, foot):
    """01 "Faults of the whole message" 2 to 5: the first code in rank order, 0 if
    none. Break, 26, ranks before them; here the message has none.

    head and items are what rules.judge_head and rules.judge_item answer; foot is
    the foot's code.
    """
    if head[0] or any(item[0] for item in items):
        return BAD_LETTER
    faults = [head[1]] + [item[1] for item in items] + [foot]
    return next((code for code in faults if code), 0)


def numbers(items):
    """01 "Calls and their answers", closing: accepted count and sum, refused
    count and sum, zero watch. An item is accepted where it has no T code."""
    accepted = [item for item in items if item[2] == 0]
    refused = [item for item in items if item[2] != 0]
    return (
        len(accepted),
        sum(item[3] for item in accepted),
        len(refused),
        sum(item[3] for item in refused),
        sum(item[4] for item in accepted),
    )


def identifier(head):
    """01 "Calls and their answers", closing: positions 10-34 as they stand, or
    spaces unless a head with its right ending was read."""
    return NO_IDENTIFIER if head is None else rules.at(head, 10, 34)


def table_after(table, codes):
    """01 "Calls and their answers": each code in its item's own byte, as far as
    the table goes; other bytes stay."""
    written = bytes(codes)[: len(table)]
    return written + table[len(written) :]


def refusal(day, banks, known, barred, table):
    """01 and 02 #105, refusals: opening 1, 4; then the piece 2, 3, 15. 0 if there is none."""
    first = rules.refusal(day, banks, known, barred)
    if first != 1 and len(table) > LONGEST_TABLE:
        return 4
    return first


# The whole


def judge(message, day, banks, known, barred, table, told=None):
    """(refusal or 0, code, five numbers, kind, identifier, the table afterwards).

    01 "Calls and their answers"; 02 #101 for the kind, which comes with every code.
    A refusal gives its number alone: the code and the numbers beside it are 0, the
    kind is ATUTAL and the identifier is spaces. Refusals 1 to 4 and 15 leave the table
    as it was; an overflow, 6, leaves in it the codes that had a byte. Where a kind and a
    bar are told, items are judged by them and not by what the head tells: a session
    keeps them from its head, or a host has put them into it.
    """
    zeros = (0, 0, 0, 0, 0)
    refused = refusal(day, banks, known, barred, table)
    if refused:
        return refused, 0, zeros, rules.ATUTAL, NO_IDENTIFIER, table
    head, items, foot = cut(message)
    told = rules.told_by(head, barred) if told is None else told
    judged = [judge_item(item, k, day, tuple(banks), told) for k, item in enumerate(items, 1)]
    after = table_after(table, [item[2] for item in judged])
    # 01, refusal 6: more complete items before any break than the table.
    if len(items) > len(table):
        return 6, 0, zeros, rules.ATUTAL, NO_IDENTIFIER, after
    # 01 "Faults of the whole message" 1: a break ranks first.
    if foot is None:
        return 0, BREAK, zeros, told.kind, identifier(head), after
    total = sum(item[3] for item in judged)
    code = verdict(
        rules.judge_head(head, day, banks, known),
        judged,
        rules.judge_foot(foot, len(items), total),
    )
    # 01, closing: with a code other than 00 the five numbers are 0.
    return 0, code, zeros if code else numbers(judged), told.kind, identifier(head), after
