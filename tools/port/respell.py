#!/usr/bin/env python3
"""Brings this repository's own definitions, fields and lemmas to snake case: satAdd becomes sat_add, and first-low first_low.

usage: respell.py [--table FILE] [--write-table FILE] FOLDER

It goes by text, once, after the toolchain's port.py and before any edit by hand. A name is a word that a file of specs/ or proofs/ of FOLDER declares; with
--table the words come from FILE, a row 'old, tab, new' each. It turns whole words in .antt files, in the clauses and 'ghost use' items of .rt files, and in the
code spans of comments and of README.md and docs/. A file that imports a word from elsewhere keeps that word. Two words that would fall together, and a word that
would meet a parameter of a function whose clause names it, are shown on a line that begins 'look:'.
"""

import collections
import os
import re
import sys

WORD = r'[^\s(){}.;,@"«»]+'
DECLARED = re.compile(rf"^( *)((?:(?:pub|abbrev|unfoldable|record|data|mutual) )*)({WORD})(?: [({{].*)? :(?: |$)", re.M)
USE = re.compile(r"\buse ([^\s;{]+?)(?:\.\{([^;}]*)\}|(?: as (\S+))?;?[ \t]*$)", re.M)
CLAUSE = re.compile(r"\b(?:requires|ensures)\s*\*?\s*(?:\w+\s*)?\{|\bghost\s*(?:\w+\s*[:=]\s*)?\{")
# Constructors, which a line declares two at a time, and variables that definitions bind.
BOUND = "lastExactLayer stoppedAt bestValue exactOnly recordRoom parentExact compileComputing diagramComputing roomE roomN".split()
# Lemmas and statements that would get the name of a function or a field.
APART = {
    w: w.replace("-", "_") + "_lem"
    for w in """best-exact best-exact-node better-by drain-for drained-of edge-words exact-path first-ones found-by in-cutset is-compiled is-exact is-going is-item-word
    item-line list-after local-bounds mode-for no-cutset node-words nothing-found path-of picked-by profits-in push-all record-words refused-by search-in stop-of
    tally-by weights-in value-of lent-of answer-of tally-of""".split()
}
# The same of words that port.py had spelled before, in these files alone.
APART_IN = {
    "theorems/proofs/Walk.antt": {"walk_up": "walk_up_lem"},
    "job_text/proofs/Branches.antt": {"is_digit": "is_digit_lem"},
    "job/proofs/Answering.antt": {"left_by": "left_by_lem"},
}


def option(args, name):
    if name in args:
        at = args.index(name)
        value = args[at + 1]
        del args[at : at + 2]
        return value
    return None


def files(root, *ends):
    for folder, dirs, names in os.walk(os.path.join(root, "crates")):
        dirs[:] = sorted(d for d in dirs if d != "out")
        for f in sorted(names):
            if f.endswith(ends):
                yield os.path.join(folder, f)


def read(path):
    with open(path, encoding="utf-8") as f:
        return f.read()


def spelled(word):
    if re.match("[A-Z]", word):
        return re.sub(r"-(\w)", lambda m: m[1].upper(), word)
    word = re.sub(r"(?<=[a-z0-9])([A-Z])", lambda m: "_" + m[1].lower(), word)
    return word.replace("-", "_")


def code_of(text):
    return re.sub(r"--[^\n]*", "", text)


def table_of(root):
    declared = collections.defaultdict(set)
    for path in files(root, ".antt"):
        kept = "/specs/" in path or re.search(r"/proofs/[^/]+$", path)
        for m in DECLARED.finditer(code_of(read(path))):
            word = m[3]
            if kept and (spelled(word) != word) and re.fullmatch(r"[\w'-]+", word) and not word.startswith("-"):
                declared[word].add(os.path.relpath(path, root))
    return {word: APART.get(word, spelled(word)) for word in sorted({*declared, *BOUND})}, declared


def foreign(code):
    """The words that a file imports from another library than this repository's."""
    out = set()
    for m in USE.finditer(code):
        if m[1].startswith("Rattle.") and not re.match(r"Rattle\.(std|core|io|os|libc)\b", m[1]):
            continue
        for it in re.findall(WORD, m[2] or m[3] or m[1].split(".")[-1]):
            out.add(it)
    return out


def turned(text, table):
    return re.sub(WORD, lambda m: table.get(m[0], m[0]), text)


def spans(text, table):
    return re.sub(r"`[^`\n]+`", lambda m: turned(m[0].replace("`", " ` "), table).replace(" ` ", "`"), text)


# In the proof of a function a part of a dotted name may be a step of Rattle's, called as a function of the source.
STEP = re.compile(r"(?<=[\w'-]\.)([\w'-]+)")


def antt(text, table, path, functions, fields):
    others = foreign(code_of(text))
    mine = {w: n for w, n in table.items() if w not in others}
    mine |= next((words for end, words in APART_IN.items() if path.endswith(end)), {})
    if re.search(r"/proofs/[^/]+/", path):
        kept = {w for w in STEP.findall(text) if w in mine and (w in functions or w not in fields)}
        text = STEP.sub(lambda m: m[0] + "\0" if m[0] in kept else m[0], text)
    out = []
    for line in text.split("\n"):
        m = re.search(r"(?<![^\s(){};,])--", line)
        code, comment = (line[: m.start()], line[m.start() :]) if m else (line, "")
        out.append(turned(code, mine) + spans(comment, mine))
    return "\n".join(out).replace("\0", "")


def block_end(text, at):
    depth = 1
    while depth:
        depth += {"{": 1, "}": -1}.get(text[at], 0)
        at += 1
    return at


def rt(text, table):
    others = foreign(text)
    mine = {w: n for w, n in table.items() if w not in others}
    out, at = [], 0
    for m in re.finditer(r"//[^\n]*|\bghost use [^;]*;|" + CLAUSE.pattern, text):
        if m.start() < at:
            continue
        out.append(text[at : m.start()])
        if m[0].startswith("//"):
            out.append(spans(m[0], mine))
            at = m.end()
        elif m[0].startswith("ghost use"):
            out.append(turned(m[0], mine))
            at = m.end()
        else:
            end = block_end(text, m.end())
            out.append(m[0] + turned(text[m.end() : end], mine))
            at = end
    return "".join(out) + text[at:]


def looked(root, table, declared):
    by_new = collections.defaultdict(set)
    for old, new in table.items():
        by_new[new].add(old)
    for new, olds in sorted(by_new.items()):
        if len(olds) > 1:
            print("look: fall together:", new, *(f"{o} {sorted(declared[o])[:3]}" for o in sorted(olds)))
    news = set(table.values())
    for path in files(root, ".antt"):
        text = code_of(read(path))
        for m in DECLARED.finditer(text):
            if m[3] in news and m[3] not in table:
                print("look: declared already:", m[3], os.path.relpath(path, root), *sorted(by_new[m[3]]))
        for it in foreign(text):
            if it in news and by_new[it] & set(re.findall(WORD, text)):
                print("look: imported already:", it, os.path.relpath(path, root), *sorted(by_new[it]))
    for path in files(root, ".rt"):
        text = read(path)
        for m in re.finditer(r"\bfn \w+[^{]*?\(((?:[^()]|\([^()]*\))*)\)[^{;]*?(?=\s(?:requires|ensures))", text):
            params = set(re.findall(r"(\w+)\s*:", m[1]))
            at, clauses = m.end(), ""
            while True:
                c = re.match(r"\s*(?:requires|ensures)\s*\*?\s*(?:\w+\s*)?\{", text[at:])
                if not c:
                    break
                end = block_end(text, at + c.end())
                clauses += text[at:end]
                at = end
            for w in set(re.findall(WORD, clauses)):
                if table.get(w, "") in params:
                    print("look: meets a parameter:", w, table[w], os.path.relpath(path, root))


def main(args):
    source, to = option(args, "--table"), option(args, "--write-table")
    (root,) = args
    if source:
        table = dict(line.rstrip("\n").split("\t") for line in open(source, encoding="utf-8") if not line.startswith("# "))
    else:
        table, declared = table_of(root)
        looked(root, table, declared)
    if to:
        with open(to, "w", encoding="utf-8") as f:
            f.write("# The repository's own words before and after respell.py: old, tab, new.\n")
            f.writelines(f"{o}\t{n}\n" for o, n in table.items())
    if "--look" in os.environ.get("RESPELL", ""):
        return
    count, functions, fields = 0, set(), set()
    for path in files(root, ".rt"):
        functions |= {w.replace("_", "-") for w in re.findall(r"\bfn (\w+)", read(path))}
    for path in files(root, ".antt"):
        fields |= {m[3] for m in DECLARED.finditer(code_of(read(path))) if m[1]}
    pages = [os.path.join(root, "README.md")] + [os.path.join(root, "docs", f) for f in sorted(os.listdir(os.path.join(root, "docs")))]
    for path in [*files(root, ".antt", ".rt"), *(p for p in pages if p.endswith(".md"))]:
        text = read(path)
        new = antt(text, table, path, functions, fields) if path.endswith(".antt") else rt(text, table) if path.endswith(".rt") else spans(text, table)
        if new != text:
            count += 1
            with open(path, "w", encoding="utf-8") as f:
                f.write(new)
    print(f"respell: {len(table)} words, {count} files")


main(sys.argv[1:])
