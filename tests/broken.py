#!/usr/bin/env python3
"""Programs of examples/c with one mistake each, which a tool of the guide's recipe must catch.

usage: broken.py WCET PLAIN [WORD ..], the analyser, a profile for it and words for make

Each file of tests/c/broken has a line that tells the mistake, then `file:`, pairs of `old:` and `new:` lines, each text of
which stands in that file once, `tool:` and `says:`, a pattern of the line that tells it. The tools are `make`, whose lines
are the compiler's and those of records.py, `wcet`, which refuses, and `kept`, which looks at the traced run. The last line
is 'N passed, N failed'; the status is 0 only where none failed.
"""
import pathlib
import re
import shutil
import subprocess
import sys
import tempfile

TOP = pathlib.Path(__file__).resolve().parent.parent
SOURCES = TOP / "examples" / "c"


class Edit:
    """A mistake: the file and what is changed in it, the program that is built of it, and who tells it by which line."""

    def __init__(self, path):
        self.name, self.changes, fields = path.stem, [], {}
        for line in path.read_text().splitlines()[1:]:
            field, text = re.fullmatch(r"(\w+): ?(.*)", line).groups()
            if field == "old" and (not self.changes or self.changes[-1]["new"]):
                self.changes.append({"old": [], "new": []})
            if field in ("old", "new"):
                self.changes[-1][field].append(text)
            else:
                fields[field] = text
        self.file, self.tool, self.says = fields["file"], fields["tool"], fields["says"]
        self.program = fields.get("program", self.file.split(".")[0])

    def apply(self, folder):
        """Changes the file in a folder."""
        text = (folder / self.file).read_text()
        for change in self.changes:
            old, new = "\n".join(change["old"]), "\n".join(change["new"])
            if text.count(old) != 1:
                raise SystemExit(f"{self.name}: the text {old!r} stands {text.count(old)} times in {self.file}")
            text = text.replace(old, new)
        (folder / self.file).write_text(text)


def told(words, folder):
    """What a command wrote, and its status."""
    ended = subprocess.run(words, cwd=folder, capture_output=True, text=True, errors="replace")
    return ended.stdout + ended.stderr, ended.returncode


def caught(edit, folder, wcet, plain, words):
    """What the edit's tool wrote."""
    text, status = told(["make", "-s", *words, f"out/{edit.program}.elf"], folder)
    if edit.tool == "make":
        return text
    if status != 0:
        return f"make: {text}"
    if edit.tool == "wcet":
        return told([wcet, "bound", f"out/{edit.program}.elf", plain], folder)[0]
    told(["make", "-s", *words, f"out/{edit.program}.trace"], folder)
    text, status = told(["./kept.py", f"out/{edit.program}.elf", f"out/{edit.program}.trace", "task"], folder)
    return text if status == 1 else f"status {status}: {text}"


def tried(edit, wcet, plain, words):
    """Whether the tool tells the mistake."""
    with tempfile.TemporaryDirectory() as work:
        folder = pathlib.Path(work) / "c"
        shutil.copytree(SOURCES, folder, ignore=shutil.ignore_patterns("out", "sums", "__pycache__"))
        edit.apply(folder)
        text = caught(edit, folder, wcet, plain, words)
    if re.search(f"(?m){edit.says}", text):
        return True
    print(f"failed: {edit.name}\n  gave:   {text!r}\n  wanted: {edit.says}")
    return False


def main(wcet, plain, *words):
    if not shutil.which("qemu-mips"):
        print("skipped: the broken runs, without QEMU for MIPS")
    wcet, plain = (str(pathlib.Path(path).resolve()) for path in (wcet, plain))
    passed = failed = 0
    for path in sorted((TOP / "tests" / "c" / "broken").glob("*.edit")):
        edit = Edit(path)
        if edit.tool == "kept" and not shutil.which("qemu-mips"):
            continue
        good = tried(edit, wcet, plain, words)
        passed, failed = passed + good, failed + (not good)
    print(f"{passed} passed, {failed} failed")
    return 1 if failed else 0


if __name__ == "__main__":
    if len(sys.argv) < 3:
        raise SystemExit(__doc__)
    sys.exit(main(*sys.argv[1:]))
