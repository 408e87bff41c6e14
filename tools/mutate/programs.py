"""Small wrong programs: one change of one line of code that keeps the code's shape.

Another comparison, sum, constant, truth value, field or parameter; half of a number; two arguments, two branches or two operands in
each other's place; a store dropped. Contracts, comments and declarations are left as they are.
"""
import re

from change import Change, alike, at_each, counted_on, swapped_words

ORDER = {" < ": " <= ", " <= ": " < ", " > ": " >= ", " >= ": " > ", " == ": " != ", " != ": " == ", " && ": " || ", " || ": " && "}
SUMS = {" + ": " - ", " - ": " + ", " * ": " + ", " / ": " * ", " % ": " / "}
TRUTHS = {"true": "false", "false": "true"}
NAME = r"[a-z_][a-z0-9_]*"
PATH = rf"{NAME}(?:\.{NAME})*"
NO_CODE = re.compile(r"\s*(//|ghost |use |requires|ensures|#\[|mod |pub mod |\}$)")


def alike_fields(top):
    bodies = (body for path in top.glob("crates/*/src/**/*.rt") for body in re.findall(r"(?s)struct \w+ \{(.*?)\}", path.read_text()))
    return alike(re.findall(rf"({NAME}): ([^,\n]+),", body) for body in bodies)


def other_operands(line):
    """The operands of a difference or a comparison in each other's place."""
    for found in re.finditer(rf"\b({PATH}) (-|<|<=|>|>=) ({PATH})(?![\w(\[.])", line):
        left, sign, right = found.groups()
        if left != right:
            yield f"{line[:found.start()]}{right} {sign} {left}{line[found.end():]}"


def swapped_arguments(line):
    for call in re.finditer(rf"\b{NAME}\(([^()]*)\)", line):
        words = call.group(1).split(", ")
        for other in swapped_words(words, r"[\w.]+"):
            yield line[:call.start(1)] + ", ".join(other) + line[call.end(1):]


def swapped_branches(line):
    found = re.search(r"\{ ([^{}]+) \} else \{ ([^{}]+) \}", line)
    if found:
        yield line[:found.start(1)] + found.group(2) + " } else { " + found.group(1) + line[found.end(2):]


def other_fields(line, fields):
    for field in re.finditer(rf"\.({NAME})\b(?!\()", line):
        for other in sorted(fields.get(field.group(1), ())):
            yield line[:field.start(1)] + other + line[field.end(1):]


def other_parameters(line, parameters):
    """A parameter becomes another of its type."""
    for word in re.finditer(rf"(?<![\w.:]){NAME}\b(?![(\w:])", line):
        for other, kind in parameters.items():
            if other != word.group() and kind == parameters.get(word.group()):
                yield line[:word.start()] + other + line[word.end():]


def halved(line):
    """What is answered, handed on alone or put into a field becomes its half. Of what is no number that is no Rattle, and not tried."""
    if "=> {" in line or line.endswith(") =>"):
        return
    for found in re.finditer(rf"(?<=[a-z]\(){PATH}(?=\)(?! =>))|(?<=\w: ){PATH}(?=,$)|(?<=Refused\(){PATH}(?=\)[,;)]?$)", line):
        yield f"{line[:found.end()]} / 2{line[found.end():]}"
    answered = re.fullmatch(rf"(\s*)({PATH}|[a-z_:]+\(.*\)|.* => {PATH})( as \w+)?(,?)", line)
    if answered:
        indent, what, cast, comma = answered.groups()
        yield f"{indent}({what} / 2){cast}" if cast else f"{indent}{what} / 2{comma}"


def parameters_of(head):
    """The parameters of a function, with their types."""
    return dict(re.findall(rf"({NAME}): ([^,)]+)", head))


def changed(line, fields, parameters):
    """Each other line that this line of code can be changed into."""
    code = line.split("//")[0].rstrip()
    for table in ORDER, SUMS, TRUTHS:
        yield from at_each(table, code)
    yield from counted_on(code)
    yield from other_fields(code, fields)
    yield from other_parameters(code, parameters)
    yield from other_operands(code)
    yield from swapped_arguments(code)
    yield from swapped_branches(code)
    yield from halved(code)
    if re.match(rf"\s*{NAME}(\[.*\]|\.{NAME}) = .*;\s*$", code):
        yield ""


def changes(top, crate):
    """Each change of a crate's code, with the function or constant that it is in."""
    fields = alike_fields(top)
    for path in sorted((top / "crates" / crate / "src").rglob("*.rt")):
        name, head, in_head = "", "", False
        for number, line in enumerate(path.read_text().splitlines()):
            begins = re.match(rf"\s*(?:pub )?(?:extern \"C\" )?fn ({NAME})", line)
            if begins:
                name, head, in_head = begins.group(1), "", True
            if re.match(r"(pub )?(struct|enum) ", line):
                name = ""  # a declaration, up to its closing bracket
            if in_head:
                head += line if not re.match(r"\s*(requires|ensures)", line) else ""
                in_head = not re.search(r"(^|[) ])\{$", line)
                continue
            constant = re.match(r"\s*(?:pub )?const (\w+)", line)
            if NO_CODE.match(line) or not (name or constant):
                continue
            for new in dict.fromkeys(changed(line, fields, parameters_of(head))):
                yield Change(str(path.relative_to(top)), number, constant.group(1) if constant else name, line, new)
