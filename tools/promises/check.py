#!/usr/bin/env python3
"""check.py [DEMANDS SCOPE]: checks docs/PROMISES.md, and what the other documents cite, against the repository. Run it at the repository's top.

Every file that a row cites is there, every name behind it is defined in that file, every edit, figure and starred case that
is cited exists, and every edit, of the gate or of tools/mutate, is cited somewhere. Every file that any document links or names is
there, and defines the names that stand right behind it. With the two documents, the demands and document 01, it also checks that
each quoted sentence stands there, in order, and that nothing of them is left unquoted.
Ends in 'N rows, M faults'; exit status 1 if there is a fault.
"""
import glob
import os
import re
import sys

LEDGER = "docs/PROMISES.md"
DOCUMENTS = ["README.md", "docs/*.md", "tools/*/README.md"]
FIGURES = {
    "Traps": "crates/diagram/specs/Traps.antt",
    "Calls": "crates/calls/specs/Figures.antt",
    "Layout": "crates/layout/specs/Figures.antt",
    "Searches": "crates/searches/specs/Figures.antt",
    "Jobs": "crates/jobs/specs/Figures.antt",
}
STARRED = "crates/diagram/specs/Starred.antt"
EDITS = ["crates/*/must-fail/{}.edit", "tools/mutate/edits/*/{}.edit"]
NOTHING = "Text that promises nothing"
DEFINED = r'(?m)^\s*(?:(?:abbrev|unfoldable|pub|extern "C"|record|data|fn|struct|enum)\s+)*{}(?=[\s:(<])'
faults = []


def edits(name):
    """The edits of that name, in the gate and beside it."""
    return sorted(path for place in EDITS for path in glob.glob(place.format(name)))


def fault(where, what, document=LEDGER):
    faults.append(f"{document}:{where}: {what}")


def read(path):
    with open(path, encoding="utf-8") as f:
        return f.read()


def rows(text):
    """(line number, heading, cells) of each row of a table of four columns."""
    heading = ""
    for number, line in enumerate(text.splitlines(), 1):
        if line.startswith("## "):
            heading = line[3:]
        cells = [c.strip() for c in line.strip("|").split(" | ")]
        if line.startswith("| ") and cells[0] != "Sentence":
            if len(cells) != 4:
                fault(number, f"{len(cells)} cells instead of 4")
            elif not all(cells):
                fault(number, "an empty cell")
            else:
                yield number, heading, cells


def quotes(cell):
    return re.findall(r'"([^"]+)"', cell)


def check_names(number, cell):
    """A file in backticks, then the names that it defines."""
    path = None
    for token in re.findall(r"`([^`]+)`", cell):
        if re.fullmatch(r"\w+/(specs|proofs)/\w+\.antt|\w+/src/lib\.rt", token):
            path = "crates/" + token
            if not os.path.isfile(path):
                fault(number, f"no file {token}")
                path = None
        elif "/" in token:
            if not os.path.exists(token):
                fault(number, f"no file {token}")
        elif path is None:
            fault(number, f"the name {token} has no file before it")
        elif not re.search(DEFINED.format(re.escape(token)), read(path)):
            fault(number, f"{token} isn't defined in {path}")


def check_tests(number, cell, cited):
    file = None
    for word, quote in re.findall(rf'\b({"|".join(FIGURES)})\b|"([^"]+)"', cell):
        if word:
            file = FIGURES[word]
        elif file is None:
            fault(number, f'the figure "{quote}" has no file before it')
        elif not re.search(r"(?m)^\s*-- .*" + re.escape(quote), read(file)):
            fault(number, f'no figure "{quote}" in {file}')
    cell = re.sub(r'"[^"]+"', "", cell)
    for letters in re.findall(r"Starred ([A-Z](?:(?:, | to )[A-Z])*)", cell):
        for letter in re.findall(r"[A-Z]", letters):
            if not re.search(rf"(?m)^\s*-- {letter}$", read(STARRED)):
                fault(number, f"no starred case {letter}")
    for token in re.findall(r"`([^`]+)`", cell):
        if "/" in token:
            if not os.path.exists(token):
                fault(number, f"no file {token}")
        elif not edits(token):
            fault(number, f"no edit {token}")
        cited.add(token)


def check_document(document):
    """Links, files in backticks, files of the same folder behind them, and names right behind a file."""
    for number, line in enumerate(read(document).splitlines(), 1):
        for link in re.findall(r"\]\(([^)]+)\)", line):
            if not os.path.exists(os.path.join(os.path.dirname(document), link)):
                fault(number, f"no file {link}", document)
        folder = None
        for token, names in re.findall(r"`([^`]+)`((?::?,? ?`[\w-]+`)*)", line):
            if re.fullmatch(r"\w+/(specs|proofs|src)/\w+\.\w+", token):
                token = "crates/" + token
            elif folder and re.fullmatch(r"\w+\.antt", token):
                token = os.path.join(folder, token)
            elif not re.fullmatch(r"(crates|docs|tools|include)/[\w./*-]+", token):
                continue
            if "/out/" in token:  # made by rt, and never committed
                continue
            if not glob.glob(token):
                fault(number, f"no file {token}", document)
                continue
            folder = os.path.dirname(token)
            for name in re.findall(r"`([^`]+)`", names) if os.path.isfile(token) else ():
                if not re.search(DEFINED.format(re.escape(name)), read(token)):
                    fault(number, f"{name} isn't defined in {token}", document)


def plain(text):
    """Text without line ends, table bars and the marks of lists, headings apart."""
    text = re.sub(r"(?m)^\|[-|]+\|$", "", text)
    text = re.sub(r"(?m)^(- |\d+\. |\| \d[\d, ]*\| )", "", text)
    text = re.sub(r"(?m)^\| | \|$", "", text).replace(" | ", " ")
    return re.sub(r"\s+", " ", text)


def sections(text):
    """Heading and text of each section of document 01."""
    parts = re.split(r"(?m)^## (.*)$", text)[1:]
    return dict(zip(parts[::2], map(plain, parts[1::2])))


def check_quotes(table, nothing, documents):
    """Each section is its quoted sentences, and nothing else but marks."""
    for heading, text in documents.items():
        at, left = 0, text
        quoted = [(n, q) for n, h, cells in table if h == heading for q in quotes(cells[0])]
        for number, quote in quoted:
            found = text.find(quote, at)
            if found < 0:
                fault(number, f'not in the document, or not in its order: "{quote}"')
            else:
                at = found + len(quote)
                left = left[:found] + "\0" * len(quote) + left[at:]
        for quote in nothing:
            left = left.replace(quote, "\0")
        for rest in re.split("\0+", left):
            if re.search(r"\w", rest):
                fault(0, f'{heading}: nothing quotes "{rest.strip()}"')


def main(documents):
    text = read(LEDGER)
    table, cited = list(rows(text)), set()
    for number, _, cells in table:
        check_names(number, cells[1])
        check_names(number, cells[2])
        check_tests(number, cells[3], cited)
    for edit in edits("*"):
        if os.path.basename(edit)[:-5] not in cited:
            fault(0, f"no row cites the edit {edit}")
    for document in sorted(path for place in DOCUMENTS for path in glob.glob(place)):
        check_document(document)
    if documents:
        demands, scope = documents
        known = sections(read(scope))
        three = re.search(r"(?ms)^1\. Every.*?(?=^Not asked for)", read(demands))
        known["The three demands"] = plain(three.group())
        check_quotes(table, quotes(text[text.index(NOTHING):]), known)
    for line in faults:
        print(line)
    print(f"{len(table)} rows, {len(faults)} faults")
    return 1 if faults else 0


if __name__ == "__main__":
    sys.exit(main(sys.argv[1:]))
