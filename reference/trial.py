"""Expected answers to the cases of cases.py, by the calls of include/nshanvekh.h.

    python3 reference/trial.py < crates/trial/stdin

Written from documents 01 and 02, docs/CODES.md, docs/SESSION.md and the header alone, not
from the code that is held to them. The lines # E B K A, and those that build the base
text, are those of script.py; like them, P, Z and X set something, and the lines with
small letters try something:

    P   duplicate code, ten digits number, ten digits time, six digits output's
        length, single spaces between them: the particulars of the replies and FEDSTAs
    Z   three digits, for session, numbers and id: 0 the buffer that is lent has one
        element too few, 1 the right count, 2 one too many
    j   five digits code table's length, a space, four digits for the length of each
        piece: judges the text whole and by pieces, writes the reply to it and reads
        the reply. The first length is that of the last piece and of any further ones,
        0 for what is left; the pieces before it have the lengths that follow
    a   five digits code table's length, at most 25: judges the text in two pieces, cut
        at each place of the text
    w   five digits code table's length: writes the reply to the text and reads it
    s   ten digits k, a space, ten digits kind: judges the text as a single record
    r   five digits code table's length: reads the text as a STATUS
    f   five digits for the length of each of the files day, banks and known, single
        spaces between them: prints the slip for them and the message, which follow
        each other in the text
    o   five digits code table's length: opens the session
    t   five digits code table's length, four digits first, four digits last, single
        spaces between them: the session takes the text's bytes from first to last
    c   closes the session
    d   six digits list's length, a space, five digits code table's length: judges the
        FEDJEL that follows the list of cover requests in the text
    q   six digits list's length, three digits cover, ten digits count, and the
        identifier, single spaces between them: writes the FEDSTA for that request from
        the FEDJEL that follows the list in the text
    X   four digits place, a space, three digits: puts that byte into the session

The text of a line is the base text with the changes that follow the sign | of the
line: each is a space, four digits k, four digits n, and in hexadecimal the bytes that
stand in place of the n after the base's first k. They come in ascending order and
don't overlap. Elements of tables, outputs, numbers and identifiers are all 255 before
each call. The session of o, t, c and X stays from line to line; it has zeros at first.
Lines P, Z and X print nothing.

Each call gives its number, then what stands in the numbers that it was lent, in the
identifier and in the table, each of these two by the sum of its bytes and the sum of
the sums of all its beginnings; what a call leaves alone is 255.

A j line has that of nsh_judge, then p and that of the pieces: the number of the first
of their calls that was refused, and what they left. A j or w line has w, the number of
nsh_reply, its numbers, and the two sums of the reply and of what follows it in the
output; then r and that of nsh_read_status on the reply. An r line has that of
nsh_read_status, an s line the number of nsh_single, an f line what is printed, on lines
of its own. An a line has that of the pieces, none and all, and 1 where the pieces of
each cut left the same, as 01 demands. An o, t or c line has that of its call, and 1
where the session's bytes are those before the call, else 0. Numbers and identifier are
there also for o and t, and a table of length 0 for c. A d line has the number of
nsh_fedjel, its numbers, up to 25 of the table's first bytes and the table's two sums. A q
line has the number of nsh_fedsta and the two sums of what follows the FEDSTA in the output,
or of the whole output where it is refused; then the FEDSTA, on lines of its own.
"""

import signal
import sys
from itertools import accumulate

sys.dont_write_bytecode = True  # no folder of compiled files beside the sources

import cover
import message
import rules
import script
import session
import slip
import status

UNTOUCHED = 255
SIZE = 99  # the header, NSH_SIZE
CLOSING_NUMBERS, REPLY_NUMBERS, FEDJEL_NUMBERS, ID_BYTES = 7, 1, 2, 25  # the header, sizes of buffers
COVER = 1  # the header, nsh_fedsta: any other number is no
SHOWN = 25  # the bytes of a table that a d line has

# The header, NSH_FIELD and NSH_KIND: numbered from 1.
FIELDS = b"""
    type message-type duplicate-code initiator identifier date number bank account debit-date purpose name remark
    item-number amount customer-id address owner due-date
""".split()
KINDS = b"""
    letter mark form not-digits check-digit no-date outside-days not-listed known blank-or-zero out-of-order other
    form-of-first-eight form-of-last-eight check-digit-over-eight check-digit-over-sixteen
""".split()


# Words of the script


def changed(base, changes):
    """The base text with the changes of a line; the last is made first, so that places stay."""
    text = base
    for change in reversed(changes):
        first, count = int(change[:4]), int(change[4:8])
        text = text[:first] + bytes.fromhex(change[8:].decode()) + text[first + count :]
    return text


class Sizes:
    """A Z line: how far session, numbers and id are from their right sizes."""

    def __init__(self, digits):
        self.session, self.numbers, self.id = (int(digit) - 1 for digit in digits.decode())


# What is printed


def sums(text):
    """The sum of the bytes, and the sum of the sums of all beginnings."""
    return b" %d %d" % (sum(text), sum(accumulate(text)))


def untouched(length):
    return bytes([UNTOUCHED]) * length


def listed(numbers):
    return b"".join(b" %d" % number for number in numbers)


def lent(refused, numbers, identifier, sizes):
    """Numbers and identifier after a call: what it gives, or what was there where it is refused."""
    if refused:
        return listed(untouched(len(numbers) + sizes.numbers)) + sums(untouched(ID_BYTES + sizes.id))
    return listed(numbers) + sums(identifier)


# Calls on a whole message, a single record and a STATUS


def judged(text, given, table, sizes, by_pieces):
    """What nsh_judge gives, or the calls by pieces: a wrong size of numbers and id is refused at once, or at closing."""
    refused, code, numbers, kind, identifier, after = message.judge(text, *given, table)
    if by_pieces and sizes.session:
        refused, after = SIZE, table
    elif sizes.numbers or sizes.id:
        if not by_pieces:
            refused, after = SIZE, table
        elif refused not in (1, 2, 3, 4, 15):
            refused = SIZE
    return b" %d" % refused + lent(refused, (code, *numbers, kind), identifier, sizes) + sums(after)


def replied(text, given, particulars, sizes):
    """What nsh_reply gives, and the reply, which is empty where it is refused."""
    number, time, room = (int(field) for field in particulars[2:].split())
    answer = status.reply(text, *given, particulars[0], number, time, room)
    refused, written = (0, answer) if isinstance(answer, bytes) else (answer[1], b"")
    if sizes.numbers:
        refused, written = SIZE, b""
    numbers = untouched(REPLY_NUMBERS + sizes.numbers) if refused else (len(written),)
    return b" w %d" % refused + listed(numbers) + sums(written) + sums(untouched(room - len(written))), written


def read(text, length, sizes):
    """What nsh_read_status gives."""
    refused, (facts, codes) = 0, status.read(text, length)
    if facts == "refused":
        refused, facts, codes = codes, status.NO_FACTS, b""
    if sizes.numbers or sizes.id:
        refused, codes = SIZE, b""
    numbers = (facts.duplicate, *facts[2:])
    table = message.table_after(untouched(length), codes)
    return b" %d" % refused + lent(refused, numbers, facts.identifier, sizes) + sums(table)


def single(text, own, given):
    """The number of nsh_single: 0, a refusal's, or 100 x the field's and the kind's. The line has the place and the message's kind;
    the barred list isn't lent."""
    place, kind_number = (int(field) for field in own.split())
    answer = rules.single(text, place, *given[:3], kind_number)
    if answer == b"accepted":
        return 0
    field, kind = answer.split()
    return int(kind) if field == b"refused" else 100 * (FIELDS.index(field) + 1) + KINDS.index(kind) + 1


# Calls on cover answers: the list of requests stands before the FEDJEL in the text


def fedjel(text, own, day, sizes):
    """What nsh_fedjel gives. The line has the lengths of the list and of the table."""
    end, length = (int(field) for field in own.split())
    answer = cover.judge(text[end:], day, text[:end], length)
    refused, codes = (answer[1], b"") if answer[0] == "refused" else (0, answer[2])
    if sizes.numbers:
        refused, codes = SIZE, b""
    numbers = untouched(FEDJEL_NUMBERS + sizes.numbers) if refused else answer[:2]
    table = message.table_after(untouched(length), codes)
    return b" %d" % refused + listed(numbers) + listed(table[:SHOWN]) + sums(table)


def fedsta(text, own, day, particulars):
    """What nsh_fedsta gives. The line has the list's length, cover, count and the identifier, which may have a wrong size."""
    end, covered, count, identifier = int(own[:6]), int(own[7:10]) == COVER, int(own[11:21]), own[22:]
    number, time, room = (int(field) for field in particulars[2:].split())
    answer = cover.fedsta(text[end:], day, text[:end], identifier, covered, particulars[0], number, time, count, room)
    refused, written = (0, answer) if isinstance(answer, bytes) else (answer[1], b"")
    if len(identifier) != ID_BYTES:
        refused, written = SIZE, b""
    said = b" %d" % refused + sums(untouched(room - len(written)))
    return said if refused else said + b"\n" + written


# Calls on the session


class Host:
    """What a host keeps from call to call: the session. Beside it, for the answers, what it was opened with and has read."""

    def __init__(self):
        self.session = bytes(session.SIZE)
        self.read, self.room, self.given = b"", 0, (0, (), b"", ())

    def told(self):
        """What the head told, as the session keeps it; X lines may have put something else there."""
        return session.told_in(self.session)

    def is_open(self):
        """Bytes that X lines put in leave a session as it was but for what the head told, or make it none: only then its answers are
        known here. All its pieces have the same bank list and known list; of the barred lists that of the head's piece counts."""
        if not session.is_open(self.session):
            return False
        real = session.of(self.read, self.room, *self.given, self.told())
        counts = session.HELD + int.from_bytes(real[60:68], "little")  # bytes held beyond the fill don't matter
        assert self.session[:counts] == real[:counts]
        return True

    def open(self, day, length, sizes):
        """nsh_open: 99, 1, 4."""
        if sizes.session:
            return SIZE
        self.read, self.room, self.given = b"", length, (day, (), b"", ())
        refused = 1 if rules.clearing_day(day) is None else 4 if length > message.LONGEST_TABLE else 0
        self.session = session.CLOSED if refused else session.of(b"", length, *self.given)
        return refused

    def piece(self, new, given, table, sizes):
        """nsh_piece: 99, 5, 2, 3, 15, 4; and the table afterwards, with the codes of the items that this piece completes. Items go by
        what the session keeps; the head tells it, by the barred list of the piece that completes it."""
        if sizes.session:
            return SIZE, table
        if not self.is_open():
            return 5, table
        lists = (self.given[0], *given[1:])
        refused = rules.refusal(*lists) or (4 if len(table) != self.room else 0)
        if refused:
            return refused, table
        head, items, _ = message.cut(self.read)
        self.read, self.given, before = self.read + new, lists, len(items)
        told = None if head is None and message.cut(self.read)[0] is not None else self.told()
        self.session = session.of(self.read, self.room, *lists, told)
        return 0, table[:before] + message.judge(self.read, *lists, table, told)[-1][before:]

    def close(self, numbers, identifier, sizes):
        """nsh_close: 99, 5, 6; and the numbers and the identifier afterwards."""
        if sizes.session or sizes.numbers or sizes.id:
            return SIZE, numbers, identifier
        if not self.is_open():
            return 5, numbers, identifier
        refused, code, totals, kind, own, _ = message.judge(self.read, *self.given, untouched(self.room), self.told())
        self.session = session.CLOSED
        return (refused, numbers, identifier) if refused else (0, (code, *totals, kind), own)

    def call(self, command, new, given, length, sizes):
        """What an o, t or c line prints, without the letter."""
        before, table = self.session, untouched(length)
        numbers, identifier = untouched(CLOSING_NUMBERS + sizes.numbers), untouched(ID_BYTES + sizes.id)
        if command == b"o":
            refused = self.open(given[0], length, sizes)
        elif command == b"t":
            refused, table = self.piece(new, given, table, sizes)
        else:
            refused, numbers, identifier = self.close(numbers, identifier, sizes)
        return b" %d" % refused + listed(numbers) + sums(identifier) + sums(table) + b" %d" % (self.session == before)

    def put(self, place, byte):
        """An X line."""
        self.session = self.session[:place] + bytes([byte]) + self.session[place + 1 :]


# Lines


def printed(own, text):
    """What an f line prints, without the letter: the files and the message follow each other."""
    day, banks, known = (int(field) for field in own.split())
    files, rest = text[: day + banks], text[day + banks :]
    return b"\n" + slip.slip(files[:day], files[day:], rest[:known], rest[known:])


def answer(command, own, text, given, particulars, sizes, host):
    """What a line of this command prints, without the letter."""
    if command == b"s":
        return b" %d" % single(text, own, given)
    if command == b"f":
        return printed(own, text)
    if command == b"d":
        return fedjel(text, own, given[0], sizes)
    if command == b"q":
        return fedsta(text, own, given[0], particulars)
    if command in b"otc":
        length, first, last = ([int(field) for field in own.split()] + [0, 0, 0])[:3]
        return host.call(command, text[first:last], given, length, sizes)
    length = int(own[:5])
    if command == b"r":
        return read(text, length, sizes)
    by_pieces = judged(text, given, untouched(length), sizes, True)
    if command == b"a":
        return by_pieces + b" 1"
    said = b"" if command == b"w" else judged(text, given, untouched(length), sizes, False) + b" p" + by_pieces
    reply, written = replied(text, given, particulars, sizes)
    return said + reply + b" r" + read(written, length, sizes)


def main():
    signal.signal(signal.SIGPIPE, signal.SIG_DFL)  # where the reader stops, end
    base, particulars, sizes, host = b"", b"", Sizes(b"111"), Host()
    for command, rest, given in script.commands():
        if command == b"P":
            particulars = rest
        elif command == b"Z":
            sizes = Sizes(rest)
        elif command == b"X":
            host.put(int(rest[:4]), int(rest[5:]))
        elif command in b"jawsrfotcdq":
            own, _, changes = rest.partition(b"|")
            text = changed(base, changes.split())
            line = answer(command, own, text, given, particulars, sizes, host)
            sys.stdout.buffer.write(command + line + b"\n")
        else:
            base = script.built(base, command, rest)


if __name__ == "__main__":
    main()
