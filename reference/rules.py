"""The field rules of head, item and foot, and the answer on a single record.

Written from documents 01 and 02 and the standard 002 alone, not from the code that
is held to it. What they leave open is decided as in docs/CODES.md. Records are bytes
without their ending; E, k, count and total are numbers, the bank list and the
barred list are lists of numbers, the known list is bytes. A rule answers with the
kind of fault it finds in its field, or with None.
"""

import datetime
from collections import namedtuple
from functools import lru_cache, partial

import leaves
from leaves import CHECK_DIGIT_OVER_EIGHT, CHECK_DIGIT_OVER_SIXTEEN, FORM_OF_FIRST_EIGHT, FORM_OF_LAST_EIGHT
from leaves import all_digits, check_digit, date, number

# 01 "Records": lengths without the ending.
HEAD, ITEM, FOOT = 174, 249, 24
BREAK = 26

# 02 #101: the kinds of a message, by their numbers in include/nshanvekh.h.
ATUTAL, BESZED = 0, 1

# What the head tells of its items: the message's kind (02 #101), and whether the head's bank is barred (02 #105).
Told = namedtuple("Told", "kind barred")
BARRED = 14  # 02 #105; 002 1.3.1 note 4: every item's code under a barred head bank

# 01 "Calls and their answers": the kinds, in its order. Those of an account (02 #102) are named in leaves.py.
LETTER = b"letter"
MARK = b"mark"
FORM = b"form"
NOT_DIGITS = b"not-digits"
CHECK_DIGIT = b"check-digit"
NO_DATE = b"no-date"
OUTSIDE_DAYS = b"outside-days"
NOT_LISTED = b"not-listed"
KNOWN = b"known"
BLANK_OR_ZERO = b"blank-or-zero"
OUT_OF_ORDER = b"out-of-order"
OTHER = b"other"

# 01 "Faults of the whole message" 2: text is head 70-174 and item 51-249.
# Fields and positions from 01 "Records".
HEAD_TEXT = ((b"name", 70, 104), (b"remark", 105, 174))
ITEM_TEXT = (
    (b"customer-id", 51, 74),
    (b"name", 75, 109),
    (b"address", 110, 144),
    (b"owner", 145, 179),
    (b"remark", 180, 249),
)

# 002 1.3.1 and 2.3.1, rows marked Ü and rows marked T: the code by field and kind.
MESSAGE_CODES = {
    (b"type", MARK): 46,
    (b"amount", NOT_DIGITS): 34,
}
ITEM_CODES = {
    (b"item-number", NOT_DIGITS): 39,
    (b"item-number", OUT_OF_ORDER): 32,
    (b"due-date", NOT_DIGITS): 33,
    (b"due-date", NO_DATE): 33,
    (b"due-date", OUTSIDE_DAYS): 33,
    (b"amount", BLANK_OR_ZERO): 16,
    (b"bank", NOT_DIGITS): 37,
    (b"bank", CHECK_DIGIT): 37,
    (b"bank", NOT_LISTED): 37,
    (b"account", FORM_OF_FIRST_EIGHT): 61,
    (b"account", FORM_OF_LAST_EIGHT): 61,
    (b"account", CHECK_DIGIT_OVER_EIGHT): 61,
    (b"account", CHECK_DIGIT_OVER_SIXTEEN): 61,
    (b"customer-id", BLANK_OR_ZERO): 63,
    (b"owner", BLANK_OR_ZERO): 62,
}


def at(record, first, last):
    """01 "Records": positions count from 1; both ends belong to the field."""
    return record[first - 1 : last]


def message_kind(head):
    """02 #101: BESZED in head positions 3-8 makes a BESZED, all else is ATUTAL; so is a message without a complete head."""
    return BESZED if head is not None and at(head, 3, 8) == b"BESZED" else ATUTAL


def is_barred(field, barred):
    """02 #105: eight digits, of which the first three are on the list. Check digit and bank list don't matter for it."""
    return all_digits(field) and number(field[:3]) in barred


def told_by(head, barred):
    """02 #101 and #105: what a complete head tells; without one the message is an ATUTAL and nothing is barred. BESZED knows no bar."""
    kind = message_kind(head)
    return Told(kind, head is not None and kind == ATUTAL and is_barred(at(head, 35, 42), barred))


# Rules that several fields share


def unless(right, kind):
    """The kind of fault, or None where the field is right."""
    return None if right else kind


def bank(field, banks):
    """01 "Digits and dates"; 002 1.1.1 and 2.1.1 F215.1, 1.3.1 and 2.3.1 T214.1."""
    if not all_digits(field):
        return NOT_DIGITS
    if not check_digit(field):
        return CHECK_DIGIT
    return unless(number(field) in banks, NOT_LISTED)


def account(field):
    """01 "Digits and dates"; 02 #102; 002 1.1.1 and 2.1.1 F215.2, 1.3.1 and 2.3.1 T214.2."""
    found = leaves.account(field)
    return unless(found == leaves.GOOD, found)


def no_date(field):
    """01 "Digits and dates": what keeps eight bytes from being a date."""
    if not all_digits(field):
        return NOT_DIGITS
    return unless(date(field) is not None, NO_DATE)


def clearing_day(day):
    """01 "The job": E, a number; None where it is no date."""
    return date(b"%08d" % day)


def empty(field):
    """002 1.3.1 note 3, 2.1.1 and 2.3.1 note 4: not only spaces and/or zeros."""
    return unless(not leaves.only(field, b" 0"), BLANK_OR_ZERO)


# Rules of the head


def initiator(field):
    """01 "Digits and dates": tax number and site, or EAN-13; 002 1.1.1 F213."""
    tax, site = field[1:9], field[10:13]
    if field[0:1] == b"A" and all_digits(tax) and field[9:10] == b"T" and all_digits(site):
        return unless(check_digit(tax), CHECK_DIGIT)
    if all_digits(field):
        return unless(leaves.ean13(field), CHECK_DIGIT)
    return FORM


def collector(field):
    """002 2.1 F213: ATUTAL's two forms, or E, eight digits good by annex 6 and four spaces (Ebbbsssss)."""
    if field[0:1] == b"E" and all_digits(field[1:9]) and field[9:13] == b" " * 4:
        return unless(check_digit(field[1:9]), CHECK_DIGIT)
    return initiator(field)


def identifier(field, known):
    """01 "The job" and "Faults of the whole message" 3; 002 1.1.1 and 2.1.1 note 1."""
    return unless(not leaves.known_list(field, known)[1], KNOWN)


def compiled(field, day):
    """01 "Faults of the whole message" 3, date: E-15 to E; 002 1.1.1 and 2.1.1 note 2.

    Where E is no date the record is refused or not asked for; no day is inside.
    """
    e = clearing_day(day)
    inside = no_date(field) is None and e is not None and 0 <= (e - date(field)).days <= 15
    return no_date(field) or unless(inside, OUTSIDE_DAYS)


def debit_date(field, day, compiled_on):
    """01 "Faults of the whole message" 3, debit date; 002 1.1.1 note 4.

    Before E is outside the days; C <= F216 <= C+10 is a condition that only
    docs/ has. Where C is no date there is nothing to compare with, and the date
    field has its fault before this one.
    """
    if no_date(field):
        return no_date(field)
    debit, e, c = date(field), clearing_day(day), date(compiled_on)
    if e is None or debit < e:
        return OUTSIDE_DAYS
    return unless(c is None or 0 <= (debit - c).days <= 10, OTHER)


def head_type(field):
    """002 1.1.1 and 2.1.1 F210, a row of head_fields."""
    return b"type", 41, unless(field == b"01", MARK)


def purpose(field):
    """002 1.1.1 and 2.1.1 F217, a row of head_fields."""
    return b"purpose", 48, unless(field in leaves.PURPOSES, NOT_LISTED)


def identifier_to_account(f, day, banks, known):
    """The rows of head_fields that 002 1.1.1 and 2.1.1 have alike, from the initiator on; f gives a field by its positions."""
    return (
        (b"identifier", 29, identifier(f(10, 34), known)),
        (b"date", 44, compiled(f(23, 30), day)),
        (b"number", 2, unless(all_digits(f(31, 34)), NOT_DIGITS)),
        (b"bank", 1, bank(f(35, 42), banks)),
        (b"account", 45, account(f(43, 58))),
    )


def atutal_head(f, day, banks, known):
    """01 "Faults of the whole message" 3, its order; 002 1.1.1."""
    return (
        head_type(f(1, 2)),
        (b"message-type", 9, unless(f(3, 8) == b"ATUTAL", MARK)),
        (b"duplicate-code", 42, unless(all_digits(f(9, 9)) or f(9, 9) == b"@", MARK)),
        (b"initiator", 43, initiator(f(10, 22))),
        *identifier_to_account(f, day, banks, known),
        (b"debit-date", 7, debit_date(f(59, 66), day, f(23, 30))),
        purpose(f(67, 69)),
        (b"name", 43, unless(not leaves.only(f(70, 104), b" "), BLANK_OR_ZERO)),
    )


def beszed_head(f, day, banks, known):
    """002 2.1.1, its order. 09 can't occur, and the notification date (59-66) isn't in it."""
    return (
        head_type(f(1, 2)),
        (b"duplicate-code", 42, unless(all_digits(f(9, 9)), MARK)),
        (b"initiator", 43, collector(f(10, 22))),
        *identifier_to_account(f, day, banks, known),
        purpose(f(67, 69)),
        (b"name", 43, empty(f(70, 104))),
    )


def head_fields(record, day, banks, known):
    """The rules of the kind that the head itself tells (02 #101).

    Each row: the field, its code, the kind of fault found in it or None.
    """
    table = {ATUTAL: atutal_head, BESZED: beszed_head}[message_kind(record)]
    return table(partial(at, record), day, banks, known)


# Rules of an item


@lru_cache(maxsize=None)
def workday(e, count):
    """The so-many-th Monday to Friday after a day, which isn't counted itself; None where the calendar ends before it."""
    day = e
    while count:
        if day == datetime.date.max:
            return None
        day += datetime.timedelta(days=1)
        count -= day.weekday() < 5
    return day


def due_date(field, day):
    """002 2.3.1 note 1: a date from E to E+8, eight workdays later; itself any day of the week.

    Where E is no date no day is inside, as in compiled.
    """
    if no_date(field):
        return no_date(field)
    due, e = date(field), clearing_day(day)
    if e is None or due < e:
        return OUTSIDE_DAYS
    last = workday(e, 8)
    return unless(last is None or due <= last, OUTSIDE_DAYS)


def item_number(field, k):
    """01 "Item rules": the k-th item carries number k; 002 1.3.1 and 2.3.1 T211."""
    if not all_digits(field):
        return NOT_DIGITS
    return unless(number(field) == k, OUT_OF_ORDER)


def amount(field):
    """01 "Item rules": ten digits, not all zero; 002 1.3.1 and 2.3.1 T213."""
    if not all_digits(field):
        return NOT_DIGITS
    return unless(number(field) > 0, BLANK_OR_ZERO)


def type_and_number(f, k):
    """The rows of item_fields that 002 1.3.1 and 2.3.1 have before 9-16; f gives a field by its positions."""
    return (
        (b"type", unless(f(1, 2) == b"02", MARK)),
        (b"item-number", item_number(f(3, 8), k)),
    )


def amount_to_owner(f, banks):
    """The rows of item_fields that 002 1.3.1 and 2.3.1 have after 9-16."""
    return (
        (b"amount", amount(f(17, 26))),
        (b"bank", bank(f(27, 34), banks)),
        (b"account", account(f(35, 50))),
        (b"customer-id", empty(f(51, 74))),
        (b"owner", empty(f(145, 179))),
    )


def atutal_item(f, k, day, banks):
    """01 "Item rules"; 002 1.3.1, in its order. The credit date isn't examined, so E isn't used."""
    return (*type_and_number(f, k), *amount_to_owner(f, banks))


def beszed_item(f, k, day, banks):
    """002 2.3.1, in its order."""
    return (*type_and_number(f, k), (b"due-date", due_date(f(9, 16), day)), *amount_to_owner(f, banks))


def item_fields(record, k, day, banks, kind):
    """The rules of an item in a message of the kind that its head told.

    Each row: the field, the kind of fault found in it or None.
    """
    table = {ATUTAL: atutal_item, BESZED: beszed_item}[kind]
    return table(partial(at, record), k, day, banks)


# Judging one record of a message


def bad_letters(record, text):
    """01 "Faults of the whole message" 2: the text fields with a bad letter."""
    bad = []
    for field, first, last in text:
        if not leaves.is_text(at(record, first, last)):
            bad.append(field)
    return bad


def first_code(fields, codes):
    """The code of the first field, in order, that has one; 0 if none has."""
    given = [codes[field] for field in fields if field in codes]
    return given[0] if given else 0


def item_amount(record):
    """01 "Item rules": an amount that isn't ten digits counts as 0."""
    field = at(record, 17, 26)
    return number(field) if all_digits(field) else 0


def judge_head(record, day, banks, known):
    """(bad letter 0 or 1, the head's first code or 0).

    01 "Faults of the whole message" 2 and 3, which the caller ranks. A record
    of another length has code 26 and isn't read (01 "Records", break).
    """
    if len(record) != HEAD:
        return 0, BREAK
    faults = [code for _, code, kind in head_fields(record, day, banks, known) if kind]
    return int(bad_letters(record, HEAD_TEXT) != []), faults[0] if faults else 0


def judge_item(record, k, day, banks, told):
    """(bad letter 0 or 1, first Ü code, first T code, amount, zero account 0 or 1).

    A code is 0 where there is none. 01 "Faults of the whole message" 2 and 4,
    "Item rules", and the zero watch of "Calls and their answers". Where the head
    told of a barred bank, 14 stands in place of every T code and of 0 (02 #105).
    Another length as in judge_head.
    """
    if len(record) != ITEM:
        return 0, BREAK, 0, 0, 0
    letter = int(bad_letters(record, ITEM_TEXT) != [])
    fields = item_fields(record, k, day, banks, told.kind)
    fault, code = first_code(fields, MESSAGE_CODES), BARRED if told.barred else first_code(fields, ITEM_CODES)
    zero = int(leaves.account_zero(at(record, 35, 50)))
    return letter, fault, code, item_amount(record), zero


def judge_foot(record, count, total):
    """The foot's code or 0: count, then sum.

    01 "Faults of the whole message" 5; 002 1.2.1 and 2.2.1. Its type isn't asked for: a
    record is the foot only if it begins 03 (01 "Records"). Another length as in
    judge_head.
    """
    if len(record) != FOOT:
        return BREAK
    for first, last, given, code in ((3, 8, count, 18), (9, 24, total, 19)):
        field = at(record, first, last)
        if not all_digits(field) or number(field) != given:
            return code
    return 0


# A single record, judged alone


def refusal(day, banks, known, barred):
    """01, refusals 1, 2 and 3, and 02 #105, 15, in this order; 0 if there is none."""
    if clearing_day(day) is None:
        return 1
    if not leaves.bank_list(0, banks)[0]:
        return 2
    if not leaves.known_list(b"", known)[0]:
        return 3
    return 0 if leaves.barred_list(barred) else 15


def single(record, k, day, banks, known, kind_number):
    """01 "Calls and their answers", a single head or item; refusals 1, 2, 3, 10.

    Length tells head from item. A bad letter comes first, then the fields in order.
    A head tells its own kind; an item comes with its number: 1 BESZED, any other
    ATUTAL (include/nshanvekh.h, nsh_single). Single records know no bar (02 #105).
    """
    refused = refusal(day, banks, known, ())
    if not refused and len(record) not in (HEAD, ITEM):
        refused = 10
    if refused:
        return b"refused %d" % refused
    if len(record) == HEAD:
        text = HEAD_TEXT
        fields = [(field, kind) for field, _, kind in head_fields(record, day, banks, known)]
    else:
        text = ITEM_TEXT
        fields = item_fields(record, k, day, banks, BESZED if kind_number == 1 else ATUTAL)
    faults = [(field, LETTER) for field in bad_letters(record, text)]
    faults += [(field, kind) for field, kind in fields if kind]
    return b" ".join(faults[0]) if faults else b"accepted"
