#!/usr/bin/env python3
"""Tries wrong bodies: edits that turn the meaning of a function, and that the prover has to refuse.

usage: tests/wrong_bodies.py CRATE..      tries the edits of these crates (those of wrong_bodies/ and of must-fail/)
       tests/wrong_bodies.py --all        tries the edits of every crate, which takes hours
       tests/wrong_bodies.py --stands     says which edits cannot be applied, without any proof
       tests/wrong_bodies.py --table      prints each edit with its last trial

All edits of a crate stand in wrong_bodies/CRATE.edits, each under a line '== WHAT IT TURNS': lines 'file: src/x.rt', then
pairs 'old: TEXT' (standing once in that file) and 'new: TEXT', each TEXT on one line. One that the gate tries too is a file
crates/CRATE/must-fail/what_it_turns.edit, and has '(in the gate)' in place of these lines.
The trial works in a copy of the tree. It says for each edit: refused; proved, which is a finding; or cannot be applied.
It notes in a line 'tried: ' the day, the result and a sum of the crate's text. It ends with 1 if an edit was not refused.
"""
import datetime
import hashlib
import pathlib
import re
import shutil
import subprocess
import sys
import tempfile

ROOT = pathlib.Path(__file__).resolve().parent.parent
FOLDER = ROOT / "wrong_bodies"
TOLD = re.compile(r"must-fail (\S+)/(\S+\.edit): (.*)")
HEAD = """# Wrong bodies

"gate" says that the edit stands in a must-fail folder, where each gate tries it. "Present text" means that the
sources and definitions of the crate have not changed since the trial, "earlier text" that they have, or that it is
not known whether they have. An edit that was never tried says nothing yet.

"""


def needs():
    """The libraries of this repository that each crate names."""
    found = {}
    for line in (ROOT / "crates.txt").read_text().splitlines():
        name, _, below = line.split("#")[0].partition(":")
        if name.strip():
            found[name.split()[0]] = below.split()
    return {name: [it for it in below if it in found] for name, below in found.items()}


def below(crates):
    """These crates and all libraries below them."""
    known, found, todo = needs(), set(), list(crates)
    while todo:
        name = todo.pop()
        if name not in found:
            found.add(name)
            todo += known[name]
    return found


class Edit:
    """What it turns, the lines that change files, the last trial, and whether the gate tries it."""

    def __init__(self, title):
        self.title, self.lines, self.tried, self.in_gate = title, [], [], False

    @property
    def name(self):
        return self.title.replace(" ", "_") + ".edit"

    def pairs(self):
        """The changes: (file, old text, new text)."""
        found, path, old = [], "", ""
        for line in self.lines:
            if line.startswith("file: "):
                path = line[6:].strip()
            elif line.startswith("old: "):
                old = line[5:]
            elif line.startswith("new:"):
                found.append((path, old, line[5:]))
        return found

    def text(self):
        """As it stands in a file of edits."""
        tried = [f"tried: {' '.join(self.tried)}"] if self.tried else []
        return "\n".join(["", f"== {self.title}", *tried, *(["(in the gate)"] if self.in_gate else self.lines)]) + "\n"


def edits():
    """Each edit, by (crate, name)."""
    found = {}
    for file in sorted(FOLDER.glob("*.edits")):
        edit = None
        for line in file.read_text().split("\n"):
            if line.startswith("== "):
                edit = Edit(line[3:])
                found[file.stem, edit.name] = edit
            elif line.startswith("tried: "):
                edit.tried = line[7:].split()
            elif line == "(in the gate)":
                edit.in_gate = True
            elif edit and line:
                edit.lines.append(line)
    for file in sorted(ROOT.glob("crates/*/must-fail/*.edit")):
        key = file.parent.parent.name, file.name
        edit = found.setdefault(key, Edit(file.stem.replace("_", " ")))
        edit.lines, edit.in_gate = file.read_text().rstrip("\n").split("\n"), True
    return dict(sorted(found.items()))


def unapplied(crate, edit):
    """Why an edit cannot be applied to the present text, or nothing."""
    texts = {}
    for path, old, new in edit.pairs():
        source = ROOT / "crates" / crate / path
        if not source.is_file():
            return f"there is no file {path}"
        text = texts.get(path) or source.read_text()
        if text.count(old) != 1:
            return f"its old text stands {text.count(old)} times in {path}"
        texts[path] = text.replace(old, new)
    return "" if texts else "it changes nothing"


def sum_of(crate):
    """A sum of the sources and definitions of a crate."""
    total = hashlib.sha256()
    for part in ("src", "specs"):
        for file in sorted((ROOT / "crates" / crate / part).rglob("*")):
            if file.is_file():
                total.update(str(file.relative_to(ROOT)).encode() + b"\0" + file.read_bytes() + b"\0")
    return total.hexdigest()[:12]


def note(results):
    """Writes what trials came to into the files of these crates."""
    present, today = edits(), datetime.date.today().isoformat()
    for key, result in results.items():
        if result in ("refused", "proved"):
            present[key].tried = [today, result, sum_of(key[0])]
    for crate in sorted({it for it, _ in results}):
        head = f'# Edits of {crate} that the prover has to refuse (docs/TESTING.md, "Wrong bodies").\n'
        (FOLDER / f"{crate}.edits").write_text(head + "".join(it.text() for (of, _), it in present.items() if of == crate))


def result_of(said):
    if said.startswith("refused"):
        return "refused"
    return "proved" if said.startswith("NOT REFUSED") else "cannot be applied"


def copy_to(room, crates):
    """A copy of the tree, with what is built of the libraries below."""
    skipped = shutil.ignore_patterns("out", ".git", "wrong_bodies", "must-fail")
    shutil.copytree(ROOT, room, ignore=skipped, dirs_exist_ok=True)
    for name in below(crates):
        built = ROOT / "crates" / name / "out" / "rlib"
        if built.is_dir():
            (room / "crates" / name / "out").mkdir(exist_ok=True)
            subprocess.run(["cp", "-a", "--reflink=auto", built, room / "crates" / name / "out" / "rlib"], check=True)
    for (crate, name), edit in edits().items():
        if crate in crates:
            (room / "crates" / crate / "must-fail").mkdir(exist_ok=True)
            (room / "crates" / crate / "must-fail" / name).write_text("\n".join(edit.lines) + "\n")


def try_crates(crates):
    """Tries the edits of these crates, notes what came of them, and returns whether all were refused."""
    wanted = {key for key in edits() if key[0] in crates}
    results = {}
    with tempfile.TemporaryDirectory(prefix="wrong-bodies-") as room:
        copy_to(pathlib.Path(room), crates)
        ran = subprocess.Popen(["rt", "must-fail", *crates], cwd=room, stdout=subprocess.PIPE, stderr=subprocess.STDOUT,
                               stdin=subprocess.DEVNULL, text=True, errors="replace")
        for line in ran.stdout:
            told = TOLD.search(line)
            if told:
                results[told[1], told[2]] = result_of(told[3])
                print(f"{told[1]}/{told[2]}: {results[told[1], told[2]]}", flush=True)
            elif "error" in line:
                print(line, end="", file=sys.stderr)
        ran.wait()
    note(results)
    for crate, name in sorted(wanted - results.keys()):
        print(f"{crate}/{name}: not tried (its libraries were not proved)")
    count = [*results.values()].count
    rest = len(wanted) - count("refused") - count("proved")
    print(f"{count('refused')} refused, {count('proved')} proved, {rest} not tried")
    return count("refused") == len(wanted)


def stands():
    bad = {key: why for key, edit in edits().items() if (why := unapplied(key[0], edit))}
    for (crate, name), why in bad.items():
        print(f"{crate}/{name}: cannot be applied: {why}")
    print(f"{len(edits()) - len(bad)} edits apply, {len(bad)} do not")
    return not bad


def function_of(crate, edit):
    """Where an edit changes the text: the function above its first change, or the file."""
    path, old, _ = edit.pairs()[0]
    source = ROOT / "crates" / crate / path
    text = source.read_text() if source.is_file() else ""
    before = text[: text.find(old) + len(old)] if old in text else ""
    found = re.findall(r"^\s*(?:pub )?fn (\w+)", before, re.M) if path.startswith("src/") else []
    return f"{path}, `{found[-1]}`" if found else path


def last_trial(key, edit):
    if not edit.tried:
        return "never"
    day, result, total = edit.tried
    over = "present text" if total == sum_of(key[0]) else "earlier text"
    return f"{day}, {over}" if result == "refused" else f"{day}, {over}: PROVED"


def table():
    text, crate = HEAD, ""
    present = edits()
    gate = sum(it.in_gate for it in present.values())
    trials = [last_trial(key, edit) for key, edit in present.items()]
    text += f"There are {len(present)} edits, {gate} of them in the gate; {sum('present' in it for it in trials)} were tried over the "
    text += f"present text, {trials.count('never')} never.\n"
    for key, edit in present.items():
        if key[0] != crate:
            crate = key[0]
            text += f"\n## {crate}\n\n| What it turns | Where | Gate | Last trial |\n|---|---|---|---|\n"
        where = "gate" if edit.in_gate else "-"
        text += f"| {edit.title} | {function_of(crate, edit)} | {where} | {last_trial(key, edit)} |\n"
    print(text, end="")
    return True


def main():
    words = sys.argv[1:]
    if words == ["--stands"]:
        return stands()
    if words == ["--table"]:
        return table()
    named = sorted({crate for crate, _ in edits()}) if words == ["--all"] else words
    unknown = [it for it in named if not any(it == crate for crate, _ in edits())]
    if not named or unknown:
        sys.exit(f"no edits of {' '.join(unknown)}" if unknown else __doc__)
    return try_crates(named)


if __name__ == "__main__":
    sys.exit(0 if main() else 1)
