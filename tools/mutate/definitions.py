"""Small wrong definitions: one change of one line of a file in specs/ that keeps the definition's shape.

Another comparison, sum, number, truth value, constructor or field; one less; two arguments, two branches or two operands in each
other's place. Names and types are left as they are, and so are the computed statements: they are what a wrong definition has to break.
"""
import re

from change import Change, alike, at_each, counted_on

WORDS = {"leb": "ltb", "ltb": "leb", "true": "false", "false": "true", "take": "drop", "drop": "take"}
SIGNS = {" + ": " - ", " - ": " + ", " * ": " + ", " && ": " || ", " || ": " && ", " ≤ ": " < ", " < ": " ≤ ", " <ℤ ": " ≤ℤ ", " ≤ℤ ": " <ℤ "}
HOME = "Rattle.std.specs.Prelude"  # where the words and operators of both tables are
COMPUTED = {"Figures", "Starred", "Traps", "Refusals", "Lib"}
NAME = r"[^\s(){}\[\];,:.λ|]+"
ATOM = rf"(?:{NAME}|\([^()]*(?:\([^()]*(?:\([^()]*\)[^()]*)*\)[^()]*)*\))(?:\.{NAME})*"


def alike_fields(top):
    records = r"(?m)^(?:pub )?record [^\n]* where\n((?:  .*\n)+)"
    bodies = (body for path in top.glob("crates/*/specs/**/*.antt") for body in re.findall(records, path.read_text()))
    return alike(re.findall(rf"(?m)^  pub ({NAME}) : (.+)$", body) for body in bodies)


def other_fields(line, fields):
    for field in re.finditer(rf"(?<=[\w)]\.)({NAME})", line):
        for other in sorted(fields.get(field.group(1), ())):
            yield line[:field.start()] + other + line[field.end():]


def one_less(line):
    """A successor becomes what it is the successor of."""
    for found in re.finditer(rf"\bsuc ({ATOM})", line):
        yield line[:found.start()] + found.group(1) + line[found.end():]


def swapped(line, variables):
    """Two variables beside each other, the branches of a `cond` or of a match on truth, the sides of ++, - or a comparison."""
    for pattern, keep in (
        (rf"(?<![\w.])({NAME})( )({NAME})(?![\w·.])", lambda a, b: a in variables and b in variables),
        (rf"(?<=\bcond )({ATOM})( )({ATOM})(?= {ATOM})", None),
        (rf"(?<![\w.])({ATOM})( (?:\+\+|-|≤|<|<ℤ|≤ℤ) )({ATOM})", None),
    ):
        for found in re.finditer(pattern, line):
            a, between, b = found.groups()
            if a != b and (keep is None or keep(a, b)):
                yield line[:found.start()] + b + between + a + line[found.end():]
    for found in re.finditer(rf"\bcond ({ATOM}) ({ATOM}) ({ATOM})", line):
        test, yes, no = found.groups()
        if yes != no:
            yield f"{line[:found.start()]}cond {test} {no} {yes}{line[found.end():]}"
    if "true ↦" in line and "false ↦" in line:
        yield line.replace("true ↦", "• ↦").replace("false ↦", "true ↦").replace("• ↦", "false ↦")


def changed(line, variables, fields):
    """Each other line that this part of a definition can be changed into."""
    yield from at_each(WORDS, line)
    yield from at_each(SIGNS, line)
    yield from counted_on(line)
    yield from other_fields(line, fields)
    yield from one_less(line)
    yield from swapped(line, variables)


def used(text, new):
    """The text with what the changed line needs of the libraries named at its head."""
    needs = [w for w in re.findall(NAME, new) if w in WORDS] + [f"◌{s}◌" for s in re.findall(r" (\+|-|<|≤|&&|\|\||<ℤ|≤ℤ) ", new)]
    head = "\n".join(line for line in text.splitlines() if line.startswith("use "))
    for need in dict.fromkeys(needs):
        if not re.search(rf"[{{ ]{re.escape(need)}[,}}]", head):
            text = f"use {HOME}.{{{need}}}\n" + text
    return text


def bound_in(text):
    """The variables that a text binds: (x y : T)."""
    return set(re.findall(NAME, " ".join(re.findall(r"\(([^():]*) :", text))))


def bodies(lines):
    """(line number, definition, its variables, what stays of the line, what may change) of each line that says what a definition means:
    the right side of an equation, the lines that it goes on in, a record's field."""
    name, variables, in_type = "", set(), False
    for number, line in enumerate(lines):
        indented = line.startswith(" ")
        if re.match(r"\s*--|use |pub mod|\s*$", line):
            continue
        if re.match(r"(unfoldable|abbrev|pub)\b", line):
            name = re.match(rf"(?:(?:unfoldable|abbrev|pub|irrelevant|opaque) )*(?:record |data )?({NAME})", line).group(1)
            variables, in_type = bound_in(line), not re.search(r"\brecord\b", line)
        elif not indented and line.endswith(" ="):
            variables, in_type = set(re.findall(NAME, line[:-2])) - {name}, False
        elif not indented and " = " in line:
            left, sign, right = line.partition(" = ")
            variables, in_type = set(re.findall(NAME, left)) - {name}, False
            yield number, name, variables | bound_in(right), left + sign, right
        elif re.match(r"  pub \S+ : ", line):
            left, sign, right = line.partition(" : ")
            yield number, name, variables | bound_in(right), left + sign, right
        elif not in_type:
            yield number, name, variables | bound_in(line), "", line


def changes(top, crate):
    """Each change of a crate's definitions, with the definition that it is in."""
    fields = alike_fields(top)
    for path in sorted((top / "crates" / crate / "specs").rglob("*.antt")):
        if path.stem in COMPUTED:
            continue
        lines = path.read_text().splitlines()
        for number, name, variables, kept, body in bodies(lines):
            for new in dict.fromkeys(changed(body, variables, fields)):
                if new != body:
                    yield Change(str(path.relative_to(top)), number, name, lines[number], kept + new)
