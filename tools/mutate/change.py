"""A change of one line, and the ways to change a line that code and definitions share."""
import re
from typing import NamedTuple


class Change(NamedTuple):
    """Line number `number` of a file, inside the function or definition `name`, reads `new` in place of `old`."""

    file: str
    number: int
    name: str
    old: str
    new: str

    def __str__(self):
        return f"{self.file}:{self.number + 1} {self.name}: {self.old.strip()}  ->  {self.new.strip() or '(dropped)'}"


def at_each(table, line):
    """Each word of the table, wherever it stands, becomes the table's other word."""
    for old, new in table.items():
        edge = r"\b" if old[0].isalpha() else ""
        for found in re.finditer(edge + re.escape(old) + edge, line):
            yield line[:found.start()] + new + line[found.end():]


def counted_on(line):
    """Each number becomes the next."""
    for number in re.finditer(r"(?<![\w.·])\d+(?=(u8|u32|u64|usize|i64)?\b)", line):
        yield line[:number.start()] + str(int(number.group()) + 1) + line[number.end():]


def swapped_words(words, simple):
    """Each two neighbouring words that match, in each other's place."""
    for i in range(len(words) - 1):
        if words[i] != words[i + 1] and all(re.fullmatch(simple, w) for w in words[i:i + 2]):
            yield words[:i] + [words[i + 1], words[i]] + words[i + 2:]


def alike(declarations):
    """What a field can be taken for: another of its struct or record with the same type. A declaration is its fields, each with its type."""
    others = {}
    for fields in declarations:
        of_type = {}
        for name, kind in fields:
            of_type.setdefault(kind, []).append(name)
        for names in of_type.values():
            for a, b in zip(names, names[1:] + names[:1]):
                if a != b:
                    others.setdefault(a, set()).add(b)
    return others
