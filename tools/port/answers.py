#!/usr/bin/env python3
"""Turns a function's Proof.antt of the older form, a term for each goal, into Invariants.antt and Answers.antt.

usage: answers.py NAMES.json CRATE_FOLDER LANDED_CRATE_FOLDER [FUNCTION ..]

NAMES.json is what 'rt check --generated DIR --old-names' writes. A goal that only said 'search rules' is dropped, since the check tries that by itself.
What it could not turn is shown on a line that begins 'left:'. Proof.antt goes; git has it.
"""

import json
import os
import re
import sys

CHAIN = re.compile(r"(?<![\w'.-])(c|[a-zA-Z][\w'₀-₉]*)((?:\.before)*)((?:\.[^\s(){}.;,@\"«»]+)*)")


def blocks(text):
    """The top declarations, each a list of lines."""
    out, cur = [], []
    for line in text.split("\n"):
        if line and not line[0].isspace() and cur and not cur[-1].startswith("unfolding") and not continues(cur, line):
            out.append(cur)
            cur = []
        if line.strip() or cur:
            cur.append(line)
    if cur:
        out.append(cur)
    return [[l for l in b if l.strip()] for b in out if any(l.strip() for l in b)]


def continues(cur, line):
    """Whether the line is the clause of the signature above it."""
    first = cur[-1] if cur[-1][:1] not in (" ", "") else next((l for l in reversed(cur) if l and not l[0].isspace()), "")
    if first.startswith("--") or line.startswith(("use ", "--")) or first.startswith("use "):
        return False
    m = re.match(r"(?:(?:pub|abbrev|unfoldable) )*([^\s]+) ?.*? :", cur[0]) or re.match(r"(?:(?:pub|abbrev) )*(\S+)", cur[0])
    name = m[1] if m else None
    if line.startswith("unfolding"):
        return True
    return bool(name) and (line.split()[0] == name)


class Function:
    def __init__(self, data):
        self.needs = dict(data["needs"])
        self.steps, self.arm_of = {}, {}
        self.parents = {}
        for at, (place, parent, (old, new), callee, extra) in enumerate(data["places"]):
            self.steps.setdefault(old, new)
            self.parents[place] = parent
        for arm in data["arms"]:
            if arm:
                name, _, fields = arm
                for new, old, path in fields:
                    if path:
                        self.arm_of.setdefault((old, tuple(path)), (name, new))
        self.loops = {}
        for (names, variables), changed in zip(data["loops"], data["changed"] or [[]] * len(data["loops"])):
            self.loops[names[0]] = (names[1], variables, changed)
        self.clauses = data["clauses"]


def chain(f, head, rest, left):
    """c and the fields behind it, but for 'before', in today's names."""
    parts = [p for p in rest.split(".") if p]
    if not parts:
        return head
    step = parts[0]
    if head == "c" and step not in ("requires", "ranges", "args"):
        for n in range(len(parts), 0, -1):
            arm = f.arm_of.get((step, tuple(parts[1:n])))
            if arm:
                return ".".join([head, arm[0], arm[1], *parts[n:]])
        if step in f.steps:
            parts[0] = f.steps[step]
        elif step.replace("-", "_") in f.steps:
            parts[0] = f.steps[step.replace("-", "_")]
        else:
            canon = lambda w: w.replace("_", "-").lower()
            again = {canon(k): v for k, v in f.steps.items()}.get(canon(step))
            if step == "well-formed":
                again = "well_formed"
            if again:
                parts[0] = again
            else:
                left.add(f"step {step}")
    return ".".join([head, *parts])


def body_of(f, text, left):
    # let s = c.before.. in: s is c
    alias = {}
    for m in re.finditer(r"let (\S+) = c((?:\.before)*)((?:\.[^\s]+)*) in\s*", text):
        if not m[3]:
            alias[m[1]] = "c"
    text = re.sub(r"let (\S+) = c((?:\.before)*) in\s*", "", text)
    for a in alias:
        text = re.sub(rf"(?<![\w'.-]){re.escape(a)}(?=\.)", "c", text)
    return re.sub(r"(?<![\w'.-])c((?:\.before)*)((?:\.[^\s(){}.;,@\"«»]+)*)", lambda m: chain(f, "c", m[2], left), text)


def turn(f, name, text, landed, crate):
    left = set()
    old_needs = re.findall(r"^\S+ : tie \.?\.?Need-(\S+)|^\S+ : tie\.Need-(\S+)", landed, re.M)
    old_needs = [a or b for a, b in old_needs]
    bs = blocks(text)
    head = [l for b in bs if b[0].startswith("--") for l in b]
    uses = [l for b in bs for l in b if l.startswith("use ")]
    answers, invariants, helpers = [], [], []
    at = 0
    for b in bs:
        if b[0].startswith(("--", "use ")):
            continue
        sig = re.match(r"(\S+) : tie\.Need-(\S+)", b[0])
        inv = re.match(r"abbrev (\S+) : tie\.(\S+)", b[0])
        if re.match(r"pub \S+-spec\b|pub \S+_spec\b", b[0]):
            continue
        if inv:
            loop = re.sub(r"^(?:invariant|decreases)-", "", inv[2])
            if loop not in f.loops:
                left.add(f"loop {loop}")
                continue
            new, variables, changed = f.loops[loop]
            kind = "invariant" if inv[2].startswith("invariant") else "decreases"
            line = "\n".join(b[1:])
            m = re.match(rf"{re.escape(inv[1])} (.*?)=(.*)", line, re.S)
            args, body = m[1].split(), m[2]
            names = [f"l.initial.{v}" if ch else f"l.{v}" for v, ch in zip(variables, changed)]
            names += [f"l.{v}" for v, ch in zip(variables, changed) if ch]
            if len(names) != len(args):
                left.add(f"loop {loop}: {args} for {names}")
            for a, n in zip(args, names):
                if a != "_":
                    body = re.sub(rf"(?<![^\s(){{}};,@]){re.escape(a)}(?![^\s(){{}}.;,@])", "\1" + n, body)
            body = body.replace("\1", "")
            invariants.append(f"abbrev pub {kind}-{new} : goal.{kind}-{new}\n{kind}-{new} l ={body}")
            continue
        if sig:
            old = old_needs[at]
            at += 1
            rest = b[1:]
            unfolding = [l for l in rest if l.startswith("unfolding")]
            rest = [l for l in rest if not l.startswith("unfolding")]
            text_ = "\n".join(rest)
            m = re.match(rf"{re.escape(sig[1])}((?: [^\s=]+)*) =\s?(.*)", text_, re.S)
            body = m[2]
            if body.strip() in ("search rules", "omega arith") and not unfolding:
                continue
            old = re.sub(r"-again(-\d+)?$", r"-preserved\1", old)
            old = re.sub(r"-holds(-\d+)?$", r"-init\1", old)
            old = re.sub(r"-less(-\d+)?$", r"-smaller\1", old)
            new = f.needs.get(old) or f.needs.get(old.replace("shared-slice-read", "shared_slice_read").replace("slice-write", "slice_write").replace("same-length", "same_length"))
            if new is None:
                canon = lambda w: w.replace("_", "-").lower()
                new = {canon(k): v for k, v in f.needs.items()}.get(canon(old))
            if new is None:
                left.add(f"need {old}")
                continue
            body = body_of(f, body, left)
            body = body.strip()
            gap = "\n    " if "\n" in body or len(body) > 130 else " "
            answers.append("\n".join([f"pub {new} : goal.{new}", *unfolding, f"{new} c ={gap}{body}"]))
            continue
        helpers.append("\n".join(b))
    path = ".".join(name)
    def uses_for(texts):
        out = []
        for u in uses:
            if ".Statement" in u or u.endswith(" as tie"):
                continue
            m = re.match(r"use (\S+?)\.\{(.*)\}$", u)
            if not m:
                out.append(u)
                continue
            kept = []
            for it in [x.strip() for x in m[2].split(",")]:
                bare = it.split()[-1]
                words = bare.split("◌") if "◌" in bare else [bare]
                if all((w in texts) if "◌" in bare else re.search(rf"(?<![^\s(){{}}.;,@]){re.escape(w)}(?![^\s(){{}}.;,@])", texts) for w in words if w):
                    kept.append(it)
            if kept:
                out.append(f"use {m[1]}.{{{', '.join(kept)}}}")
        return out
    made = {}
    if invariants:
        t = "\n\n".join(invariants)
        made["Invariants.antt"] = "\n".join(head[:1] + uses_for(t) + [f"use Rattle.{crate}.proofs.{path}.Given as goal", "", t, ""])
    if answers or helpers:
        t = "\n\n".join(helpers + answers)
        made["Answers.antt"] = "\n".join(head[:1] + uses_for(t) + [f"use Rattle.{crate}.proofs.{path}.Goals as goal", "", t, ""])
    return made, left


def main(args):
    names, folder, landed, *only = args
    with open(names, encoding="utf-8") as f:
        data = json.load(f)
    crate = os.path.basename(os.path.normpath(folder))
    data = {k: v for k, v in data.items() if k.startswith(f"Rattle-{crate}-proofs.") and k.endswith(".Lts")}
    for key, value in sorted(data.items()):
        name = key[len(f"Rattle-{crate}-proofs.") : -len(".Lts")].split(".")
        if only and name[-1] not in only:
            continue
        at = os.path.join(folder, "proofs", *name)
        proof = os.path.join(at, "Proof.antt")
        old = os.path.join(landed, "proofs", *name, "Proof.antt")
        if not os.path.exists(proof) or not os.path.exists(old):
            continue
        with open(proof, encoding="utf-8") as f:
            text = f.read()
        if "Tie as tie" not in text:
            continue
        with open(old, encoding="utf-8") as f:
            before = f.read()
        made, left = turn(Function(value), name, text, before, crate)
        os.remove(proof)
        for file, t in made.items():
            with open(os.path.join(at, file), "w", encoding="utf-8") as f:
                f.write(t)
        if not os.listdir(at):
            os.rmdir(at)
        for it in sorted(left):
            print("left:", crate, ".".join(name), it)


main(sys.argv[1:])
