"""Cover answers, by definition: a FEDJEL judged, and the FEDSTA written from it.

Written from document 02, #103, and the standard 002, sections 4 and 12, alone, not from
the code that is held to them. What they leave open is decided as in docs/CODES.md. E,
numbers, time, count and lengths are numbers, the duplicate code is a byte, cover is yes or
no; messages and the list of cover requests are bytes. Records are bytes without their
ending.
"""

import datetime
import sys
from functools import partial
from pathlib import Path

import leaves
import message
import rules
import status
from leaves import all_digits, number
from message import ENDING
from rules import at

# 02 #103; 002 12.1 to 12.4 and 4.1 to 4.2: lengths without the ending, and that of a request.
HEAD, ITEM, FOOT, REQUEST = 32, 70, 42, 65
FEDSTA = 104
STATES = {b"1": 0, b"0": 98, b"9": 97, b"5": 50}  # 02 #103: the state by the answer
ANSWERS = {b"02": (b"1",), b"03": (b"0", b"9", b"5")}  # 002 12.4.1 T525: the answers that go with a type


# Cutting


def cut(text):
    """The head, the items and the foot; None where lengths or endings aren't a FEDJEL's. Records are told by their place alone."""
    inside = len(text) - (HEAD + 2) - (FOOT + 2)
    if inside <= 0 or inside % (ITEM + 2):
        return None
    items = range(HEAD + 2, HEAD + 2 + inside, ITEM + 2)
    head, foot = message.record(text, 0, HEAD), message.record(text, HEAD + 2 + inside, FOOT)
    records = [head, *(message.record(text, start, ITEM) for start in items), foot]
    return None if None in records else (head, records[1:-1], foot)


def cut_list(requests):
    """The requests of the list by their identifiers; None where the list is refused with 11."""
    listed = [requests[start : start + REQUEST] for start in range(0, len(requests), REQUEST)]
    by_identifier = {at(request, 1, 25): request for request in listed}
    whole = len(requests) % REQUEST == 0 and len(by_identifier) == len(listed)
    return by_identifier if whole and all(all_digits(at(request, 50, 65)) for request in listed) else None


# Items


def goes_together(item):
    """002 12.4.1 T525: a type, and an answer that goes with it."""
    return at(item, 68, 68) in ANSWERS.get(at(item, 1, 2), ())


def is_right(item, listed):
    """02 #103: it answers a request rightly, which is one with no T fault but 75."""
    request = listed.get(at(item, 3, 27))
    return request is not None and at(item, 28, 67) == at(request, 26, 65) and goes_together(item)


def item_code(item, listed, answered):
    """002 12.4.1, in its order; the answered ones are the identifiers that earlier items answer rightly."""
    identifier = at(item, 3, 27)
    if identifier not in listed:
        return 74
    if identifier in answered:
        return 75
    if at(item, 28, 51) != at(listed[identifier], 26, 49):
        return 71
    if at(item, 52, 67) != at(listed[identifier], 50, 65):
        return 89
    return 0 if goes_together(item) else 76


def item_codes(items, listed):
    codes, answered = [], set()
    for item in items:
        codes.append(item_code(item, listed, answered))
        if is_right(item, listed):
            answered.add(at(item, 3, 27))
    return codes


# The message code


def last_workday_before(e):
    """The last day from Monday to Friday before E; None where the calendar begins after it."""
    days = (e.toordinal() - step for step in (1, 2, 3))
    workdays = [day for day in days if day > 0 and datetime.date.fromordinal(day).weekday() < 5]
    return datetime.date.fromordinal(workdays[0]) if workdays else None


def is_compiled(field, day):
    """002 12.1.1, date: from the last workday before E to E."""
    date, e = leaves.date(field), rules.clearing_day(day)
    first = last_workday_before(e)
    return date is not None and (first is None or first <= date) and date <= e


def head_faults(head, day, listed):
    """002 12.1.1, in its order: the codes of the fields that are wrong."""
    f = partial(at, head)
    banks = {at(request, 26, 28) for request in listed.values()}
    rows = (
        (41, f(1, 2) == b"01"),
        (9, f(3, 8) == b"FEDJEL"),
        (42, all_digits(f(9, 9))),
        (43, all_digits(f(10, 12)) and f(10, 12) in banks),
        (44, is_compiled(f(13, 20), day)),
        (2, all_digits(f(21, 24))),
        (7, f(25, 32) == b"%08d" % day),
    )
    return [code for code, right in rows if not right]


def item_faults(item):
    """002 12.4.1, the conditions marked Ü."""
    rows = ((46, at(item, 1, 2) in (b"02", b"03")), (34, all_digits(at(item, 52, 67))))
    return [code for code, right in rows if not right]


def totals(items):
    """Number and sum of items."""
    return len(items), sum(number(at(item, 52, 67)) for item in items)


def total_faults(foot, items, faulty):
    """002 12.2.1 and its note: each total by its own type where no item is faulty, else both types together."""
    fields = [at(foot, first, last) for first, last in ((3, 6), (7, 22), (23, 26), (27, 42))]
    said = [number(field) if all_digits(field) else None for field in fields]
    if not faulty:
        given = [total for kind in (b"02", b"03") for total in totals([item for item in items if at(item, 1, 2) == kind])]
        return [code for code, field, total in zip((18, 19, 18, 19), said, given) if field != total]
    pairs = zip((18, 19), (said[0::2], said[1::2]), totals(items))
    return [code for code, halves, total in pairs if None in halves or sum(halves) != total]


def message_code(head, items, foot, day, listed, faulty):
    """02 #103: the first fault in order, 0 if there is none. Totals are asked for where each item has a type and a sum."""
    if not all(status.is_address(record) for record in (head, *items, foot)):
        return message.BAD_LETTER
    faults = head_faults(head, day, listed) + [code for item in items for code in item_faults(item)]
    if not faults and at(foot, 1, 2) != b"04":
        return 47
    return (faults or total_faults(foot, items, faulty) or [0])[0]


# The calls


def lent(text, day, requests):
    """("refused", n) by 1, 11, 12 in this order; or the records, the list, the message code and the items' codes."""
    listed, records = cut_list(requests), cut(text)
    if rules.clearing_day(day) is None:
        return "refused", 1
    if listed is None:
        return "refused", 11
    if records is None:
        return "refused", 12
    codes = item_codes(records[1], listed)
    return records, listed, message_code(*records, day, listed, any(codes)), codes


def judge(text, day, requests, table_length):
    """("refused", n), or the message code, the number of items and their codes.

    02 #103: refusals 1, 11, 12, 9 in this order.
    """
    found = lent(text, day, requests)
    if found[0] == "refused":
        return found
    _, _, code, codes = found
    return ("refused", 9) if table_length < len(codes) else (code, len(codes), codes)


def standing(found, identifier):
    """02 #103: the answers that stand to a request; it has one at most."""
    (_, items, _), _, code, codes = found
    answers = [at(item, 68, 68) for item, own in zip(items, codes) if own == code == 0 and at(item, 3, 27) == identifier]
    assert len(answers) <= 1
    return answers


def fedsta(text, day, requests, identifier, cover, duplicate, reply_number, time, count, room):
    """("refused", n), or the FEDSTA's bytes.

    02 #103: refusals 1, 11, 12, 13, 8, 9 in this order; 002 4.1 and 4.2.
    """
    found = lent(text, day, requests)
    if found[0] == "refused":
        return found
    answers = standing(found, identifier)
    if answers == [] or answers == [b"1"] and not cover:
        return "refused", 13
    if duplicate not in status.DUPLICATE_CODES or reply_number > 9999 or not status.is_time(time) or count > 999999:
        return "refused", 8
    if room < FEDSTA:
        return "refused", 9
    state, none = STATES[answers[0]], b"0" * 22
    own = b"%06d" % count + at(found[1][identifier], 50, 65)
    head = b"01FEDSTA%c" % duplicate + identifier + b"%08d%04d%06d%02d" % (day, reply_number, time, state)
    foot = b"03" + (none + own if state else own + none)
    return head + ENDING + foot + ENDING


# The example of #103 and its days


def examples():
    """A list of one request, its FEDJEL with answer 1 and with answer 0, and their FEDSTAs."""
    e, identifier = 20200310, b"A12345676T001202003010001"
    request = identifier + b"1177301611111018000000000000000000012345"
    head, half, zeros = b"01FEDJEL011720200310000120200310", b"00010000000000012345", b"0" * 20
    paid = ENDING.join((head, b"02" + request + b"100", b"04" + half + zeros, b""))
    unpaid = ENDING.join((head, b"03" + request + b"000", b"04" + zeros + half, b""))
    given = b"0"[0], 7, 83000, 3, FEDSTA
    first = b"01FEDSTA0A12345676T001202003010001202003100007083000"
    assert len(paid) == 150 and judge(paid, e, request, 1) == judge(unpaid, e, request, 1) == (0, 1, [0])
    assert fedsta(paid, e, request, identifier, True, *given) == first + b"00\r\n0300000300000000000123450000000000000000000000\r\n"
    for cover in (True, False):
        assert fedsta(unpaid, e, request, identifier, cover, *given) == first + b"98\r\n0300000000000000000000000000030000000000012345\r\n"
    assert fedsta(paid, e, request, identifier, False, *given) == ("refused", 13)
    for day, dates in ((20200309, range(20200306, 20200310)), (20200310, range(20200309, 20200311))):
        assert [date for date in range(20200301, 20200320) if is_compiled(b"%d" % date, day)] == list(dates)
    assert is_compiled(b"00010101", 10101) and last_workday_before(datetime.date.min) is None


examples()


# What the program `fedjel` prints


def lines(text, day, requests):
    """The message code, the number of items, and a line for each: STANDS with its answer where both codes are 0; or the refusal."""
    found = judge(text, day, requests, len(text))
    if found[0] == "refused":
        return [f"REFUSAL {found[1]}"]
    code, count, codes = found
    items = cut(text)[1]
    marks = [f" STANDS {chr(items[k][67])}" if code == codes[k] == 0 else "" for k in range(count)]
    return [f"MESSAGE {code:02}", f"ITEMS {count}", *(f"ITEM {k + 1} {codes[k]:02}{marks[k]}" for k in range(count))]


if __name__ == "__main__":
    folder = Path(sys.argv[1])
    print(*lines(sys.stdin.buffer.read(), int((folder / "day").read_text()), (folder / "requests").read_bytes()), sep="\n")
