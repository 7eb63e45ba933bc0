#!/usr/bin/env python3
"""Reads what `rt ci` costs, and writes it into docs/PERFORMANCE.md.

usage: bench/gate.sh                runs `rt ci` at the top of the repository, and writes the table
       bench/gate.sh --watch FILE   reads each `rt ci` that others run on this machine, until it is ended; FILE has the readings
       bench/gate.sh --read FILE    writes the table from readings, and proves nothing

Each reading is one prover: its crate, what it did, its processor seconds with those of its children, the most memory that
they held, and how long it took. All are read from /proc every second or two: a prover is told by its word --crate-name,
its tests by the word --test, and an edit by the folder in which it works. What no reading saw is in the row "rest".
A crate that was proved more than once counts with its dearest proof.
"""
import json
import os
import pathlib
import re
import subprocess
import sys
import textwrap
import threading
import time

ROOT = pathlib.Path(__file__).resolve().parent.parent
PAGE = ROOT / "docs" / "PERFORMANCE.md"
READINGS = ROOT / "crates" / "sc_cli" / "out" / "gate.json"
TICKS = os.sysconf("SC_CLK_TCK")
SECONDS = 2
BEGIN, END = "<!-- bench/gate.sh: begin -->\n", "<!-- bench/gate.sh: end -->\n"
KINDS = ("proof", "tests", "edits")


class Processes:
    """All processes of the system at one moment."""

    def __init__(self):
        self.parents, self.begun, self.spent, self.below = {}, {}, {}, {}
        for entry in filter(str.isdigit, os.listdir("/proc")):
            try:
                text = pathlib.Path(f"/proc/{entry}/stat").read_text()
            except OSError:
                continue
            fields, pid = text[text.rindex(")") + 2:].split(), int(entry)
            # a process that becomes another program is another one here
            self.parents[pid], self.begun[pid] = int(fields[1]), fields[19] + text[text.index("("):text.rindex(")")]
            self.spent[pid] = sum(map(int, fields[11:15])) / TICKS
            self.below.setdefault(int(fields[1]), []).append(pid)

    def seconds(self, pid):
        """The time of a process, of its children that ended, and of those that live."""
        return self.spent[pid] + sum(self.seconds(it) for it in self.below.get(pid, []))

    def peak(self, pid):
        """The most megabytes that a process held, and its children that live, each at its own time."""
        try:
            found = re.search(r"^VmHWM:\s+(\d+)", pathlib.Path(f"/proc/{pid}/status").read_text(), re.M)
        except OSError:
            return 0
        return (int(found[1]) // 1024 if found else 0) + sum(map(self.peak, self.below.get(pid, [])))

    def above(self, pid):
        while pid in self.parents:
            yield pid
            pid = self.parents[pid]


def words_of(pid):
    try:
        return pathlib.Path(f"/proc/{pid}/cmdline").read_bytes().decode(errors="replace").split("\0")
    except OSError:
        return []


def kind_of(pid):
    """The crate that a process proves, and as what; none for any other process."""
    words = words_of(pid)
    if not words or not words[0].endswith("/rattle") or "--crate-name" not in words:
        return None
    try:
        in_edit = "rt-edit" in os.readlink(f"/proc/{pid}/cwd")
    except OSError:
        return None
    return words[words.index("--crate-name") + 1], "edits" if in_edit else "tests" if "--test" in words else "proof"


def is_gate(pid):
    words = words_of(pid)
    return len(words) > 2 and words[1].endswith("/rt") and words[2] == "ci"


class Watch:
    """The provers below each `rt ci`, or below one process, and those runs themselves."""

    def __init__(self, root=None):
        self.root, self.kinds, self.provers, self.runs = root, {}, {}, {}

    def read(self):
        all_of, now = Processes(), time.time()
        for pid in all_of.parents:
            key = pid, all_of.begun[pid]
            if key not in self.kinds:
                self.kinds[key] = kind_of(pid) or ("run" if pid == self.root or self.root is None and is_gate(pid) else None)
        run = {pid for pid in all_of.parents if self.kinds[pid, all_of.begun[pid]] == "run"}
        for pid in all_of.parents:
            key, kind = (pid, all_of.begun[pid]), self.kinds[pid, all_of.begun[pid]]
            if kind == "run":
                self._note(self.runs, key, {}, all_of, now)
            elif kind and run & set(all_of.above(pid)) and kind_of(all_of.parents[pid]) != kind:
                self._note(self.provers, key, {"crate": kind[0], "kind": kind[1]}, all_of, now)

    @staticmethod
    def _note(to, key, front, all_of, now):
        known = to.setdefault(key, {**front, "seconds": 0.0, "peak": 0, "first": now})
        known["seconds"] = max(known["seconds"], all_of.seconds(key[0]))
        known["peak"], known["last"] = max(known["peak"], all_of.peak(key[0])), now

    def readings(self):
        return {"provers": list(self.provers.values()), "runs": list(self.runs.values())}


def watched(file):
    """Reads all runs until it is ended."""
    watch = Watch()
    while True:
        watch.read()
        file.with_suffix(".new").write_text(json.dumps(watch.readings()))
        file.with_suffix(".new").replace(file)
        time.sleep(SECONDS)


def measured():
    """Runs the gate: the readings, and the status."""
    ran, ended = subprocess.Popen(["rt", "ci"], cwd=ROOT, stdin=subprocess.DEVNULL), threading.Event()
    watch = Watch(ran.pid)

    def reads():
        while not ended.wait(SECONDS):
            watch.read()
    watcher = threading.Thread(target=reads)
    watcher.start()
    status = ran.wait()
    ended.set()
    watcher.join()
    return watch.readings(), status


def minutes(seconds):
    return f"{seconds / 60:.1f}" if seconds else "-"


def stands_on():
    lines = re.findall(r"^(sc_\w+)[^:\n]*:(.*)", (ROOT / "crates.txt").read_text(), re.M)
    return {name: [it for it in below.split() if it.startswith("sc_")] for name, below in lines}


def costs(provers):
    """The seconds of each crate and kind, and its peak. Of several proofs the dearest counts; edits add up."""
    found = {}
    for it in provers:
        cost = found.setdefault(it["crate"], {"proof": 0.0, "tests": 0.0, "edits": 0.0, "peak": 0})
        cost[it["kind"]] = cost[it["kind"]] + it["seconds"] if it["kind"] == "edits" else max(cost[it["kind"]], it["seconds"])
        cost["peak"] = max(cost["peak"], it["peak"])
    return found


def longest_chain(found, known):
    """The dearest chain of crates that stand on each other: its seconds and names, the lowest first."""
    best = {}
    for name, below in known.items():
        under = max((best[it] for it in below if it in best), default=(0.0, []))
        best[name] = under[0] + found.get(name, {}).get("proof", 0.0), [*under[1], name]
    return max(best.values())


def tables(readings):
    """The text of the section: a row for each crate, in the order of crates.txt."""
    found, known = costs(readings["provers"]), stands_on()
    lines = ["| Crate | Proof | Tests | Wrong bodies | Peak MB |", "|---|---|---|---|---|"]
    for name in [it for it in known if it in found]:
        cells = [minutes(found[name][kind]) for kind in KINDS]
        lines.append(f"| `{name}` | " + " | ".join(cells) + f" | {found[name]['peak']:,} |")
    sums = [sum(it[kind] for it in found.values()) for kind in KINDS]
    lines.append("| sum | " + " | ".join(map(minutes, sums)) + " | |")
    unread = [it for it in known if it not in found]
    single = len(readings["runs"]) == 1 and not unread
    whole = readings["runs"][0]["seconds"] if single else sum(sums)
    if single:
        lines.append(f"| rest | {minutes(max(0.0, whole - sum(sums)))} | | | |")
    read = "whole gate:" if single else "whole gate: not read as one run; the rows add up to"
    chain, day = longest_chain(found, known), time.strftime("%Y-%m-%d")
    lines += ["", f"{read} {whole / 60:.0f} processor minutes", "",
              f"The proofs of the longest chain have {chain[0] / 60:.0f} of them, from `{chain[1][0]}` to `{chain[1][-1]}`. The largest prover",
              f"held {max(it['peak'] for it in found.values()):,} MB. Read on {day} on {os.cpu_count()} processors."]
    if unread:
        lines += ["", *textwrap.wrap("Not read: " + ", ".join(f"`{it}`" for it in unread) + ".", 120)]
    return "\n".join(lines) + "\n"


def write(readings):
    text = PAGE.read_text()
    before, _, rest = text.partition(BEGIN)
    PAGE.write_text(before + BEGIN + tables(readings) + END + rest.partition(END)[2])


def main():
    words = sys.argv[1:]
    if len(words) == 2 and words[0] == "--watch":
        watched(pathlib.Path(words[1]))
    elif len(words) == 2 and words[0] == "--read":
        write(json.loads(pathlib.Path(words[1]).read_text()))
        return 0
    elif words:
        sys.exit(__doc__)
    readings, status = measured()
    READINGS.parent.mkdir(parents=True, exist_ok=True)
    READINGS.write_text(json.dumps(readings))
    if status:
        print("the gate failed, so its cost is not written", file=sys.stderr)
        return 1
    write(readings)
    return 0


if __name__ == "__main__":
    sys.exit(main())
