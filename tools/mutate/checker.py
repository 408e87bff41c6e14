"""Asks the checker about changes, each in a copy of the repository, as many at a time as there are processors."""
import multiprocessing
import os
import pathlib
import re
import shutil
import subprocess
import tempfile
import time
from typing import NamedTuple

TOP = pathlib.Path(__file__).resolve().parents[2]
NAME_GONE = re.compile(r"that can be named from here|has no field|has no `|not in scope|not the name of a")
BY_HAND = re.compile(r"walk(ed)? by hand")
PROGRAMS = "page_cases", "search_replay", "replay"  # those whose stored output holds many answers
FOLLOWS = re.compile(r"was not admitted|declarations? that depends? on")  # an error that only says that another one was before it
FAULTS = 4, 5  # what `rt try` ends with where the program met a fault, or where its two runs differ


class Verdict(NamedTuple):
    """accepted; refused; none: the change isn't Rattle, or doesn't type; text: refused, but only since a proof names what is gone, or follows
    the code step by step. Then programs that lean on the changed crate are run without proof: wrong, if one writes something else than
    its stored output, alike if none does; it stays text where there is no such program, as of a definition. loose: accepted, and such a
    program writes something else."""

    word: str
    errors: list
    seconds: float


def leans():
    """What each crate leans on, each behind those."""
    lines = (line.split("#")[0].partition(":") for line in (TOP / "crates.txt").read_text().splitlines())
    return {name.split()[0]: others.split() for name, colon, others in lines if colon}


def dependents(crate):
    return [name for name, others in leans().items() if crate in others]


def has_code(crate):
    return any(re.search(r"(?m)^\s*(pub )?(extern \"C\" )?fn ", path.read_text()) for path in (TOP / "crates" / crate / "src").rglob("*.rt"))


def theory_above(crate):
    """The crates of definitions and theorems that lean on this one, and on no code that does."""
    above = dependents(crate)
    code = [name for name in above if has_code(name)]
    return [name for name in above if name not in code and not set(leans()[name]) & set(code)]


def file_is_code(file):
    return file.endswith(".rt")


def errors_of(said):
    return [line for line in said.splitlines() if ": error" in line and not FOLLOWS.search(line)]


def check(folder, crate):
    done = subprocess.run(["rt", "check"], cwd=folder / "crates" / crate, stdout=subprocess.PIPE, stderr=subprocess.STDOUT, text=True)
    return done.returncode, done.stdout


def is_text(error, folder):
    """Whether an error says only that a proof doesn't fit the code's text. A walk by hand follows it step by step, and says so at its head.
    The error names a file of the crate whose folder that is."""
    file = folder / error.split(":")[0]
    head = next((f for f in (file, file.parent.with_suffix(".antt")) if f.name == "Proof.antt" and f.exists()), None)
    return bool(NAME_GONE.search(error) or head and BY_HAND.search(head.read_text().splitlines()[0]))


def writes_else(crate):
    """Whether a program, compiled without proof, meets a fault or writes something else than its stored output. The crate's folder has what it is run on."""
    words = (crate / "args").read_text().split() if (crate / "args").exists() else []
    data = [word for path in sorted((crate / "data").glob("*")) for word in ("--data", f"{path.name}={path}")]
    given = (crate / "stdin").read_bytes() if (crate / "stdin").exists() else b""
    done = subprocess.run(["rt", "try", *data, "--", *words], cwd=crate, input=given, stdout=subprocess.PIPE, stderr=subprocess.DEVNULL)
    return done.returncode in FAULTS or done.returncode == 0 and done.stdout != (crate / "stdout").read_bytes()


def run_unproved(folder, crate, errors):
    """Runs programs that lean on the crate, compiled without proof, until one writes something else than its stored output."""
    leaning = [program for program in PROGRAMS if program == crate or program in dependents(crate)]
    for program in leaning:
        if writes_else(folder / "crates" / program):
            return "wrong", [f"{program} writes something else"]
    return ("alike" if leaning else "text"), errors


def told(code, said, folder, crate, file):
    """What the checker's word means. A definition that doesn't type is refused in its own file."""
    if code == 0:
        return "accepted", []
    errors = errors_of(said)
    if code != 1 or "logic=not-proved" not in said:
        return "none", errors
    own = folder / "crates" / crate
    if not file_is_code(file) and any((own / e.split(":")[0]).resolve() == (folder / file).resolve() for e in errors):
        return "none", errors
    return ("text" if errors and all(is_text(e, own) for e in errors) else "refused"), errors


def judged(folder, crate, change, text, further):
    """The verdict on a change that gives its file that text. What the check accepts is run in a program; if `further`, the crates of definitions
    and theorems that lean on it are checked too."""
    path, since = folder / change.file, time.time()
    kept = path.read_text()
    path.write_text(text)
    word, errors = told(*check(folder, crate), folder, crate, change.file)
    if word == "text" and file_is_code(change.file):
        word, errors = run_unproved(folder, crate, errors)
    if word == "accepted" and further:
        word, errors = asked_further(folder, theory_above(crate))
    if word == "accepted" and file_is_code(change.file) and run_unproved(folder, crate, [])[0] == "wrong":
        word = "loose"
    path.write_text(kept)
    return Verdict(word, errors, time.time() - since)


def asked_further(folder, crates):
    """The first crate that is proved no more decides."""
    for crate in crates:
        code, said = check(folder, crate)
        if code:
            return "refused", [f"in {crate}"] + errors_of(said)
    return "accepted", []


def work(folder, jobs, results):
    """Each job is a crate's: for each of its names the changes to try, until `each` of them were Rattle."""
    for crate, names, each, further in iter(jobs.get, None):
        for changes in names:
            left = each
            for change, text in changes:
                verdict = judged(folder, crate, change, text, further)
                results.put((change, verdict))
                left -= verdict.word != "none"
                if not left:
                    break
        results.put(None)


def copies(room, count):
    """Copies of the repository, one for each worker. `rt` begins there with what checks in the other copies on this machine kept."""
    for i in range(count):
        folder = pathlib.Path(room) / str(i)
        folder.mkdir()
        shutil.copytree(TOP / "crates", folder / "crates", ignore=shutil.ignore_patterns("must-fail", "incremental"))
        shutil.copy(TOP / "crates.txt", folder)
        yield folder


def try_all(wanted):
    """(change, verdict) of each change that is tried, in the order of their ends."""
    workers = min(2, os.cpu_count() or 1)
    with tempfile.TemporaryDirectory() as room:
        jobs, results = multiprocessing.Queue(), multiprocessing.Queue()
        for job in wanted + [None] * workers:
            jobs.put(job)
        running = [multiprocessing.Process(target=work, args=(folder, jobs, results)) for folder in copies(room, workers)]
        for process in running:
            process.start()
        ended = 0
        while ended < len(wanted):
            result = results.get()
            if result:
                yield result
            else:
                ended += 1
        for process in running:
            process.join()
