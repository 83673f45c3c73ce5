"""Brings the definitions and lemmas of this repository to the spelling of today's Rattle.

    python3 tools/respell.py [ROOT]

Words are in snake case: `isDigits` is `is_digits`, `by-sum` is `by_sum`. A definition that gives a type is in camel case. What Rattle
itself names keeps its dashes, and so do Rust's names, exported C names, strings and words of comments outside backticks.
Names that would fall together, or meet a name that a file has already, are printed, and the status is 1.
"""

import re
import sys
from collections import defaultdict
from pathlib import Path

ROOT = Path(sys.argv[1] if len(sys.argv) > 1 else Path(__file__).resolve().parent.parent)

# A name as antt has it, with the sign before it.
NAME = re.compile(r"(?<![\w'\-≤≡<≢])[^\W\d][\w'≤≢]*(?:-[\w'≤≢]+)*(?![\w'-])")
DECLARED = re.compile(r"^( *)((?:abbrev |unfoldable |mutual )*)(pub )?((?:abbrev |unfoldable )*)(record |data )?([^\s:(){}.,;=]+)((?: \(.*?\)| \{.*?\})*) : ?(.*)$", re.M)

# What Rattle names in a proof of a function: its goals, its invariants and measures.
GENERATED = re.compile(r"\b(tie|goal)\.")


# Lemmas that would have the name of a definition once both are in snake case: they end in `_lem`.
LEMMAS = """in-range is-packed put-at is-account codes-to is-date next-workday date-field foot-stands item-counted item-read foot-read
rules-before if-done counts-over tally-over foot-right is-status head-right counts-right reference-right kind-word how-many""".split()

# Lemmas that had a definition's name in snake case already, by the files that name them.
ALREADY = {
    "has_room": ["crates/digits/proofs/put_at/Proof.antt"],
    "head_read": ["crates/judge/proofs/Tallies.antt", "crates/judge/proofs/head_read/Proof.antt"],
}


def files():
    """The antt files and sources of the crates."""
    for path in sorted((ROOT / "crates").rglob("*")):
        if path.suffix in (".antt", ".rt") and "out" not in path.parts:
            yield path


def snake(name):
    """The name in snake case; one that begins with a capital keeps its humps."""
    if not name[0].isupper():
        name = re.sub(r"(?<=[a-z0-9])[A-Z]+", lambda m: "_" + m[0].lower(), name)
    return name.replace("-", "_")


def code_of(text):
    """The text with comments blanked."""
    return re.sub(r"--(?= |$).*", lambda m: " " * len(m[0]), text, flags=re.M)


def declared(text):
    """The names that an antt file declares, at its head or as a field or a constructor, each with its type."""
    for m in DECLARED.finditer(code_of(text)):
        name, of = m[6], m[8]
        if name in ("use", "let", "in", "_") or GENERATED.search(of) or re.search(r"\blet\b|\belim\b|λ|↦", m[0].split(" : ")[0]):
            continue
        yield name, of


def camel(name):
    return "".join(w[:1].upper() + w[1:] for w in re.split(r"[-_]", name))


def renamings():
    """Each declared name whose spelling changes, with the new one."""
    new = {}
    for path in files():
        if path.suffix != ".antt":
            continue
        for name, of in declared(path.read_text()):
            to = snake(name) + ("_lem" if name in LEMMAS else "")
            if name[0].islower() and re.search(r"(^|→ )Type [01]( where)?$", of.strip()):
                to = camel(name)
            if to != name:
                new[name] = to
    return new


def turned(text, new, path):
    """The text with its names spelled anew, and the names that it had and has now."""
    met = []

    def word(m):
        name = m[0]
        if name not in new:
            return name
        before = text_now[: m.start()]
        after = text_now[m.end() :]
        if before.endswith(".") and not re.search(r"(?:[A-Z]\w*|«\w+»)\.$", before):
            # What Rattle names in a path, as a call that it has the outcome of, isn't ours.
            if name not in FIELDS or re.match(r"\.(ensures|result|requires)\b", after):
                return name
        met.append(name)
        return new[name]

    def ticked(m):
        return "`" + NAME.sub(lambda n: new.get(n[0], n[0]), m[1]) + "`"

    comment = "//" if path.suffix == ".rt" else "-- "
    out = []
    for line in text.split("\n"):
        at = line.find(comment) if path.suffix == ".rt" else (re.search(r"--(?= |$)", line) or re.search(r"$", line)).start()
        code, said = (line, "") if at < 0 else (line[:at], line[at:])
        if path.suffix == ".rt" and '"' in code and "ghost use" not in code:
            text_now = code
            parts = re.split(r'("(?:[^"\\]|\\.)*")', code)
            for k in range(0, len(parts), 2):
                text_now = parts[k]
                parts[k] = NAME.sub(word, parts[k])
            code = "".join(parts)
        else:
            text_now = code
            code = NAME.sub(word, code)
        said = re.sub(r"`([^`]*)`", ticked, said)
        # A list of a file's laws at its head, a name a line.
        said = re.sub(r"^(--   +)(\S+)(?=  )", lambda m: m[1] + new.get(m[2], m[2]), said)
        out.append(code + said)
    return "\n".join(out), met


def fields():
    """The names of records' fields."""
    found = set()
    for path in files():
        if path.suffix != ".antt":
            continue
        inside = None
        for line in code_of(path.read_text()).split("\n"):
            if not line.strip():
                continue
            depth = len(line) - len(line.lstrip())
            if inside is not None and depth <= inside:
                inside = None
            m = DECLARED.match(line)
            if re.match(r" *(pub )?record ", line):
                inside = depth
            elif inside is not None and m:
                found.add(m[6])
    return found


FIELDS = fields()


def main():
    new = renamings()
    bad = []
    falling = defaultdict(set)
    for name, to in new.items():
        falling[to].add(name)
    falling = {to: names for to, names in falling.items() if len(names) > 1}
    for path in files():
        text = path.read_text()
        # A folder of a path, as a function's in `use`, isn't met.
        had = set(NAME.findall(re.sub(r"\b(use )?[\w+]+(\.[\w+]+)*\.(?=[\w{])", " ", code_of(text))))
        after, met = turned(text, new, path)
        for to, names in falling.items():
            if len(names & set(met)) > 1:
                bad.append(f"{path.relative_to(ROOT)}: {', '.join(sorted(names))} would each be {to}")
        for name in sorted(set(met)):
            if new[name] in had and (str(path.relative_to(ROOT)) not in ALREADY.get(new[name], [])) and path.suffix == ".antt":
                bad.append(f"{path.relative_to(ROOT)}: {name} meets {new[name]}")
        if after != text:
            path.write_text(after)
    declared_now = {name for path in files() if path.suffix == ".antt" for name, _ in declared(path.read_text())}
    for path in [ROOT / "README.md", *sorted((ROOT / "docs").rglob("*.md"))]:
        text = path.read_text()

        def said(n):
            return new.get(n[0]) or (snake(n[0]) if snake(n[0]) in declared_now else n[0])

        after = re.sub(r"`([^`\n]*)`", lambda m: "`" + NAME.sub(said, m[1]) + "`", text)
        if after != text and path.name != "PORT.md":
            path.write_text(after)
    print(f"respell: {len(new)} names")
    print("\n".join(bad))
    return 1 if bad else 0


if __name__ == "__main__":
    sys.exit(main())
