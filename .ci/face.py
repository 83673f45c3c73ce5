"""Holds include/nshanvekh.h to the code: each number that it defines, and each call's arguments by name, order and type.

    python3 .ci/face.py

The header says what a host in C believes, and no proof reads it. What differs is printed, a line each, and the status is 1.
"""

import re
import sys
from pathlib import Path

ROOT = Path(__file__).resolve().parent.parent

# Names that differ in the header: of refusals, and of arguments.
REFUSALS = {
    "NotADay": "DAY",
    "BankList": "BANKS",
    "KnownList": "KNOWN",
    "RequestList": "REQUESTS",
    "Fedjel": "NOT_FEDJEL",
    "BarredList": "BARRED",
}
ARGUMENTS = {("nsh_single", "x"): "record"}

# The buffers whose size a call looks at.
SIZES = {
    ("nsh_open", "session"): "NSH_SESSION_BYTES",
    ("nsh_piece", "session"): "NSH_SESSION_BYTES",
    ("nsh_close", "session"): "NSH_SESSION_BYTES",
    ("nsh_close", "numbers"): "NSH_CLOSING_NUMBERS",
    ("nsh_close", "id"): "NSH_ID_BYTES",
    ("nsh_judge", "numbers"): "NSH_CLOSING_NUMBERS",
    ("nsh_judge", "id"): "NSH_ID_BYTES",
    ("nsh_reply", "numbers"): "NSH_REPLY_NUMBERS",
    ("nsh_read_status", "numbers"): "NSH_STATUS_NUMBERS",
    ("nsh_read_status", "id"): "NSH_ID_BYTES",
    ("nsh_fedjel", "numbers"): "NSH_FEDJEL_NUMBERS",
    ("nsh_fedsta", "id"): "NSH_ID_BYTES",
}

# What is measured, and stands in no code.
MEASURED = {"NSH_STACK_BYTES"}


def source(crate):
    """The code of a library without its comments."""
    return re.sub(r"//.*", "", (ROOT / "crates" / crate / "src" / "lib.rt").read_text())


def constant(crate, expression):
    """The value of a sum of numbers and constants, as a crate writes it."""
    return sum(value(crate, word.strip()) for word in expression.split("+"))


def value(crate, word):
    """The value of a number or of a constant, which may be another crate's."""
    if word.isdigit():
        return int(word)
    *path, name = word.split("::")
    place = path[0] if path and path[0].islower() else crate
    found = re.search(rf"\bconst {name}: \w+ = ([^;]+);", source(place))
    return constant(place, found[1]) if found else sys.exit(f"face: crates/{place}/src/lib.rt has no constant {name}")


def upper(name):
    """NotDigits as NOT_DIGITS."""
    return re.sub(r"(?<=[a-z])(?=[A-Z])", "_", name).upper()


def arms(crate, pattern):
    """The names and numbers of what numbers cases: a match, an enum, or constants."""
    return {name: int(number) for name, number in re.findall(pattern, source(crate))}


def exports():
    """Each call's arguments and result, as C sees them."""
    found = re.findall(r'#\[unsafe\(no_mangle\)\]\s+pub extern "C" fn (\w+)\(([^)]*)\) -> (\w+)', source("nshanvekh_c"))
    return {name: (arguments, result) for name, arguments, result in found}


def bodies():
    """The body of the library's function behind each call."""
    return dict(re.findall(r"pub fn (\w+)\([^)]*\) -> \w+(.*?)\n}", source("nshanvekh"), re.S))


# The numbers


def sizes_in_code():
    """The sizes that the calls look at, and the number with which they refuse another."""
    for call, body in bodies().items():
        for buffer, size in re.findall(r"(\w+)\.len\(\) [!=]= ([\w:]+)", body):
            yield SIZES.get((call, buffer), f"the size of {buffer} in {call}"), constant("nshanvekh", size)
            yield "NSH_SIZE", int(re.search(r"return (\d+);", body)[1])


def numbers_in_code():
    """What each name of the header has to be, as pairs: a name may come more than once."""
    yield from sizes_in_code()
    yield "NSH_TABLE_MOST", constant("judge", "MOST")
    yield "NSH_DONE", arms("nshanvekh", r"(Ok)\(_\) => (\d+)")["Ok"]
    yield from ((f"NSH_{REFUSALS.get(n, upper(n))}", k) for n, k in arms("lent", r"Refusal::(\w+) => (\d+)").items())
    yield from ((f"NSH_MESSAGE_{name}", number) for name, number in arms("kinds", r"const (\w+): u32 = (\d+);").items())
    yield from ((f"NSH_FIELD_{upper(n)}", k) for n, k in arms("single", r"Answer::(\w+)\(k\) => field_and_kind\((\d+)").items())
    yield from ((f"NSH_KIND_{upper(n)}", k) for n, k in arms("findings", r"(\w+) = (\d+),").items())


# The calls


def in_c(of):
    """A number's type in C."""
    return re.sub(r"u(\d+)", r"uint\1_t", of)


def declared(call, argument):
    """How C sees an argument: a slice is a pointer and a length."""
    name, of = argument.split(": ")
    name = ARGUMENTS.get((call, name), name)
    part = re.fullmatch(r"&(mut )?\[(\w+)\]", of)
    if part is None:
        return [f"{in_c(of)} {name}"]
    return [f"{'' if part[1] else 'const '}{in_c(part[2])} *{name}", f"size_t {name}_len"]


def prototypes_in_code():
    """Each call as C declares it."""
    for call, (arguments, result) in exports().items():
        words = [word for argument in arguments.split(",") if argument.strip() for word in declared(call, argument.strip())]
        yield call, f"{in_c(result)} {call}({', '.join(words)})"


# The header


def numbers_differing(header):
    """The numbers that the code has otherwise, or not at all."""
    said = dict(re.findall(r"#define (NSH_\w+) +(\S+)", header))
    code = list(dict.fromkeys(numbers_in_code()))
    for name, number in code:
        if said.get(name) != str(number):
            yield f"{name} is {said.get(name, 'not there')}, in the code {number}"
    for name in sorted(said.keys() - dict(code).keys() - MEASURED):
        yield f"{name} is in no code"


def calls_differing(header):
    """The calls that the code declares otherwise, or not at all."""
    said = {call: " ".join(text.split()) for text, call in re.findall(r"^(\w+ (\w+)\([^)]*\));", header, re.M)}
    code = dict(prototypes_in_code())
    for call in sorted(said.keys() | code.keys()):
        if said.get(call) != code.get(call):
            yield f"{call} is\n    {said.get(call, 'not there')}\n  in the code\n    {code.get(call, 'not there')}"


def main():
    header = re.sub(r"/\*.*?\*/", "", (ROOT / "include" / "nshanvekh.h").read_text(), flags=re.S)
    lines = [*numbers_differing(header), *calls_differing(header)]
    for line in lines:
        print(f"include/nshanvekh.h: {line}", file=sys.stderr)
    sys.exit(1 if lines else 0)


main()
