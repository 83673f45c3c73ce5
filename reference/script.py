"""The lines of trial.py's script that set something and build the base text.

Each line ends with 0Ah and is a command letter, a space and the rest as raw
bytes:

    #   a comment, echoed whole
    E   the clearing day, eight digits
    B   the bank list, ten digits a number, end to end
    K   the known list
    A   the barred list, ten digits a number, end to end
    M   empties the base text
    -   appends the bytes to it
    /   appends the bytes and 0Ah
    +   appends the bytes and 0Dh 0Ah
    *   six digits N, a digit P, a digit W, one of - / + and bytes: appends the
        bytes N times as that command does; each time the W bytes after the
        first P are 1, 2 and so on, with leading zeros (W 0: none are)

E, B, K and A hold until the next one; at first the lists are empty. All but # print nothing.
"""

import sys

ENDINGS = {b"-": b"", b"/": b"\n", b"+": b"\r\n"}


def cut_numbers(rest):
    """Numbers of ten digits each."""
    return tuple(int(rest[i : i + 10]) for i in range(0, len(rest), 10))


def commands():
    """Every line of standard input but # E B K A: its letter, its rest, and the E, bank list, known list and barred list that hold."""
    day, banks, known, barred = 0, (), b"", ()
    for line in sys.stdin.buffer:
        line = line.removesuffix(b"\n")
        command, rest = line[:1], line[2:]
        if command == b"#":
            sys.stdout.buffer.write(line + b"\n")
        elif command == b"E":
            day = int(rest)
        elif command == b"B":
            banks = cut_numbers(rest)
        elif command == b"K":
            known = rest
        elif command == b"A":
            barred = cut_numbers(rest)
        else:
            yield command, rest, (day, banks, known, barred)


def numbered(rest, first, width, k):
    """The bytes with a number of so many digits over those after the first ones."""
    return rest[:first] + b"%0*d" % (width, k) + rest[first + width :] if width else rest


def repeated(rest):
    """What a * line appends."""
    count, first, width, ending = int(rest[:6]), int(rest[6:7]), int(rest[7:8]), rest[8:9]
    lines = (numbered(rest[9:], first, width, k) for k in range(1, count + 1))
    return b"".join(line + ENDINGS[ending] for line in lines)


def built(text, command, rest):
    """The base text after a line that builds it."""
    if command == b"M":
        return b""
    return text + (repeated(rest) if command == b"*" else rest + ENDINGS[command])
