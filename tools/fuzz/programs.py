"""The programs under test: runs with a limit of time, the build that tells which inputs are news, and what is kept of a finding."""
import os
import pathlib
import select
import subprocess

WAYS = "proved", "O0", "rattle", "checked"
LIMIT = int(os.environ.get("FUZZ_LIMIT", 60))  # seconds of a run
MOST_FINDINGS = int(os.environ.get("FUZZ_MOST", 20))  # a fuzzer ends with so many


def written(program, given, limit=LIMIT):
    """What a program writes; what became of it instead, if it fails, says something on standard error or doesn't end."""
    try:
        done = subprocess.run([program], input=given, capture_output=True, timeout=limit)
    except subprocess.TimeoutExpired:
        return b"no end within %d s" % limit
    fault = b"status %d: " % done.returncode + done.stderr if done.returncode or done.stderr else b""
    return fault + done.stdout


class Guided:
    """A program that answers input after input, and tells which of them reached what none before had reached."""

    def __init__(self, program):
        self.program, self.process = program, None

    def answer(self, given):
        """What is written, or what became of the program instead; and whether the input is news."""
        if self.process is None:
            self.process = subprocess.Popen([self.program], stdin=subprocess.PIPE, stdout=subprocess.PIPE)
        try:
            self.process.stdin.write(len(given).to_bytes(3, "big") + given)
            self.process.stdin.flush()
            if not select.select([self.process.stdout], [], [], LIMIT)[0]:
                return self.ended(b"no end within %d s" % LIMIT)
            head = self.process.stdout.read(4)
            if len(head) == 4:
                return self.process.stdout.read(int.from_bytes(head[1:], "big")), head[0] == 1
        except BrokenPipeError:
            pass
        return self.ended(b"the program is gone")

    def ended(self, why):
        self.process.kill()
        why += b", status %d" % self.process.wait()
        self.process = None
        return why, False


class Findings:
    """Keeps each finding in a folder: the input, what is due and what was given."""

    def __init__(self, folder):
        self.folder, self.count = pathlib.Path(folder), 0

    def are_enough(self):
        return self.count >= MOST_FINDINGS

    def add(self, program, given, due, answer):
        self.count += 1
        self.folder.mkdir(parents=True, exist_ok=True)
        name = f"{program}-{self.count}"
        for part, content in ("input", given), ("due", due), ("given", answer):
            (self.folder / f"{name}.{part}").write_bytes(content)
        print(f"FINDING {name}: due {due[:100]!r}, given {answer[:100]!r}", flush=True)


def told(what, count, figures, findings, seconds):
    """Prints the figures; the exit status."""
    for name, number in sorted(figures.items()):
        print(f"{number:9} {name}")
    print(f"{count} {what}, {findings.count} findings ({seconds:.0f} s)")
    return 1 if findings.count else 0
