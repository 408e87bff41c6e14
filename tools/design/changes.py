#!/usr/bin/env python3
"""Lists, for two trees, the functions, types and definitions that changed, old and new side by side: python3 tools/design/changes.py OLD NEW."""
import pathlib
import re
import sys


def squeeze(text):
    """One line of a text without its comments."""
    text = re.sub(r"(?m)^\s*(//|--).*$", "", text)
    return " ".join(text.split())


def heads(top):
    """The signature and clauses of each function, and each type with its fields, by crate and name."""
    functions, types = {}, {}
    for f in sorted(pathlib.Path(top).glob("crates/*/src/**/*.rt")):
        crate, text = f.relative_to(top).parts[1], f.read_text()
        owner = ""
        for line in re.finditer(r"^(?:impl(?:<[^>]*>)? (?:([A-Za-z<>, ]+) for )?([A-Z][A-Za-z]*)|\}|( *)(pub )?(?:unsafe )?(?:extern \"C\" )?fn ([a-z_0-9]+)|(pub )?(?:struct|enum|type|trait) ([A-Z][A-Za-z]*))", text, re.M):
            if line.group(2):
                owner = line.group(2) + "::" + (line.group(1).strip() + "::" if line.group(1) else "")
            elif line.group(0) == "}":
                owner = ""
            elif line.group(5):
                indent, at = line.group(3), line.start()
                rest = text[at:]
                if re.search(r"^" + indent + r"\{$", rest, re.M):
                    stops = [m.start() for m in (re.search(r"^" + indent + r"\{$", rest, re.M), re.search(r"\{\n", rest), re.search(r";\n", rest)) if m]
                    first_line = rest.split("\n", 1)[0]
                    end = len(first_line) - 2 if first_line.endswith(" {") else min(stops[0], stops[2] if len(stops) > 2 and "ensures" not in rest[:stops[2]] and stops[2] < stops[0] else stops[0])
                else:
                    end = rest.index("{\n") if "{\n" in rest else rest.index("\n")
                name = f"{crate} {owner if indent else ''}{line.group(5)}"
                functions[name] = (bool(line.group(4)), squeeze(rest[:end]))
            else:
                end = text.find("\n}", line.start())
                stop = text.find(";\n", line.start())
                end = stop + 1 if 0 <= stop < end and "\n" not in text[line.start():stop] else end + 2
                types[f"{crate} {line.group(7)}"] = (bool(line.group(6)), squeeze(text[line.start():end]))
    return functions, types


def definitions(top):
    """Each definition of specs/ and each statement of proofs/ that is public, by crate, folder and name."""
    found = {}
    for f in sorted(pathlib.Path(top).glob("crates/*/*/*.antt")):
        parts = f.relative_to(top).parts
        if parts[2] not in ("specs", "proofs"):
            continue
        for block in re.split(r"\n(?=\S)", f.read_text()):
            block = re.sub(r"(?m)^\s*--.*\n?", "", block).strip()
            m = re.match(r"(?:(?:abbrev|unfoldable) )?pub (?:record |data )?([^\s:]+)", block)
            if not m or m.group(1) in ("mod", "use", "ruleset"):
                if found and block and not block.startswith(("use ", "mod ", "pub mod", "pub use", "import")):
                    last = next(reversed(found))
                    if last[0] == parts[1] and parts[2] == "specs" and re.match(re.escape(last[2]) + r"\b|unfolding", block):
                        found[last] += " " + squeeze(block)
                continue
            text = squeeze(block)
            if parts[2] == "proofs":
                text = squeeze(re.split(r"\n(?=" + re.escape(m.group(1)) + r"[ \n]|unfolding)", block)[0])
            found[(parts[1], parts[2], m.group(1))] = text
    return found


def inner(top):
    """Each statement of proofs/ that is public inside a module with parameters, behind these, by crate, file and name."""
    found = {}
    for f in sorted(pathlib.Path(top).glob("crates/*/proofs/*.antt")):
        modules, lines = [], f.read_text().split("\n")
        for at, line in enumerate(lines):
            indent, text = len(line) - len(line.lstrip(" ")), line.strip()
            if not text or text.startswith("--"):
                continue
            while modules and modules[-1][0] >= indent:
                modules.pop()
            module = re.match(r"(?:pub )?module \S+ ?(.*?) ?where$", text)
            if module:
                modules.append((indent, module.group(1)))
                continue
            said = re.match(r"(?:(?:abbrev|unfoldable) )?pub (?:record |data )?([^\s:]+)", text)
            if not modules or not said or said.group(1) in ("mod", "use", "ruleset", "module"):
                continue
            block = [text]
            for more in lines[at + 1:]:
                if not more.strip() or len(more) - len(more.lstrip(" ")) <= indent:
                    break
                block.append(more)
            found[(f.relative_to(top).parts[1], f.stem, said.group(1))] = squeeze("\n".join([given for _, given in modules] + block))
    return found


old, new = sys.argv[1], sys.argv[2]
old_functions, old_types = heads(old)
new_functions, new_types = heads(new)


def table(title, before, after, keep):
    print(f"\n### {title}\n")
    for name in sorted(set(before) | set(after)):
        was, now = before.get(name), after.get(name)
        if was is None or now is None or was == now or not keep(was, now):
            continue
        print(f"- {name if isinstance(name, str) else name[0] + ' ' + name[2]}\n  - was `{was[1] if isinstance(was, tuple) else was}`\n  - is `{now[1] if isinstance(now, tuple) else now}`")


if "--names" in sys.argv:
    print("gone functions:", ", ".join(sorted(set(old_functions) - set(new_functions))))
    print("new functions:", ", ".join(sorted(set(new_functions) - set(old_functions))))
    print("gone types:", ", ".join(sorted(set(old_types) - set(new_types))))
    print("new types:", ", ".join(sorted(set(new_types) - set(old_types))))
    was, now = definitions(old), definitions(new)
    for folder in ("specs", "proofs"):
        print(f"gone in {folder}:", ", ".join(" ".join((k[0], k[2])) for k in sorted(was) if k[1] == folder and k not in now))
        print(f"new in {folder}:", ", ".join(" ".join((k[0], k[2])) for k in sorted(now) if k[1] == folder and k not in was))
else:
    table("Public signatures and clauses", old_functions, new_functions, lambda a, b: a[0] or b[0])
    table("Public types and their invariants", old_types, new_types, lambda a, b: a[0] or b[0])
    was, now = definitions(old), definitions(new)
    table("Definitions and statements of specs/", {k: v for k, v in was.items() if k[1] == "specs"}, {k: v for k, v in now.items() if k[1] == "specs"}, lambda a, b: True)
    table("Laws and theorems of proofs/", {k: v for k, v in was.items() if k[1] == "proofs"}, {k: v for k, v in now.items() if k[1] == "proofs"}, lambda a, b: True)
    table("Laws in modules with parameters, in proofs/", inner(old), inner(new), lambda a, b: True)
