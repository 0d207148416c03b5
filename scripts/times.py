#!/usr/bin/env python3
"""Runs the gate and writes what it took into docs/TIMES.md: for each crate its lines, functions and must-fail edits, and the
processor seconds of its proof, of its tests' proof and of its edits, read off the prover's processes while they run.

    python3 scripts/times.py [--table] [COMMAND..]

COMMAND is `rt ci` if none is given. With --table nothing is run: the lines are counted anew, and the seconds stay as they
stand in the page. A crate that the run took from what an earlier run kept stays as it stands there too. The exit status is
the command's. Times are lower bounds: a process is looked at three times a second, and what it took after the last look
isn't counted. Other work on the machine makes them greater.
"""
import os
import re
import subprocess
import sys
import time

ROOT = os.path.dirname(os.path.dirname(os.path.abspath(__file__)))
PAGE = os.path.join(ROOT, "docs", "TIMES.md")
TICKS = os.sysconf("SC_CLK_TCK")
KINDS = ("proof", "tests", "edits")


def crates():
    """The crates of crates.txt in its order, each with the crates below it that are of the repository."""
    rows = {}
    with open(os.path.join(ROOT, "crates.txt"), encoding="utf-8") as file:
        for line in file:
            line = line.split("#")[0]
            if ":" in line:
                name, below = line.split(":", 1)
                rows[name.split()[0]] = below.split()
    return {name: [it for it in below if it in rows] for name, below in rows.items()}


def lines_of(folder, ending):
    count = 0
    for at, _, names in os.walk(folder):
        for name in names:
            if name.endswith(ending):
                with open(os.path.join(at, name), encoding="utf-8") as file:
                    count += sum(1 for _ in file)
    return count


def functions_of(folder):
    count = 0
    for at, _, names in os.walk(folder):
        for name in names:
            if name.endswith(".rt"):
                with open(os.path.join(at, name), encoding="utf-8") as file:
                    count += len(re.findall(r"^\s*(?:pub(?:\([a-z]+\))? )?(?:const )?fn ", file.read(), re.M))
    return count


def edits_of(folder):
    return len([it for it in os.listdir(folder) if it.endswith(".edit")]) if os.path.isdir(folder) else 0


def processes():
    """For each process its parent, its processor seconds, and its words."""
    found = {}
    for pid in filter(str.isdigit, os.listdir("/proc")):
        try:
            with open(f"/proc/{pid}/stat", encoding="utf-8", errors="replace") as file:
                stat = file.read().rpartition(")")[2].split()
            with open(f"/proc/{pid}/cmdline", encoding="utf-8", errors="replace") as file:
                words = file.read().split("\0")
            found[int(pid)] = int(stat[1]), (int(stat[11]) + int(stat[12])) / TICKS, words
        except (OSError, IndexError, ValueError):
            pass
    return found


def below(pid, top, all_of):
    while pid in all_of and pid != top:
        pid = all_of[pid][0]
    return pid == top


def what(pid, words):
    """The crate that a prover's process works at, and for what."""
    if not words or os.path.basename(words[0]) != "rattle" or "--crate-name" not in words:
        return None
    crate = words[words.index("--crate-name") + 1]
    try:
        place = os.readlink(f"/proc/{pid}/cwd")
    except OSError:
        place = ""
    if "/rt-edit" in place:
        return crate, "edits"
    return crate, "tests" if "--test" in words else "proof"


def sums(seen):
    spent = {}
    for (_, work), seconds in seen.items():
        spent[work] = spent.get(work, 0) + seconds
    return spent


def watch(command, told):
    """Runs the command, and gives its status, the seconds by the clock, and the processor seconds by crate and kind. Once a
    minute what was seen so far is told, so that it stands also where the run is broken off."""
    began = last = time.monotonic()
    run = subprocess.Popen(command, cwd=ROOT)
    seen = {}
    while run.poll() is None:
        if time.monotonic() - last > 60:
            last = time.monotonic()
            told(sums(seen))
        all_of = processes()
        for pid, (_, seconds, words) in all_of.items():
            work = what(pid, words)
            if work and below(pid, run.pid, all_of):
                seen[pid, work] = max(seconds, seen.get((pid, work), 0))
        time.sleep(0.3)
    return run.returncode, time.monotonic() - began, sums(seen)


def kept_times():
    """The seconds that stand in the page."""
    kept = {}
    if os.path.isfile(PAGE):
        with open(PAGE, encoding="utf-8") as file:
            for line in file:
                cells = [it.strip(" `") for it in line.strip().strip("|").split("|")]
                if len(cells) == 9:
                    for kind, cell in zip(KINDS, cells[6:]):
                        if re.fullmatch(r"\d+", cell):
                            kept[cells[0], kind] = int(cell)
    return kept


def longest_chain(rows, spent):
    """The chain of crates whose proofs take longest one after another."""
    best = {}

    def chain(name):
        if name not in best:
            under = max((chain(it) for it in rows[name]), default=(0, []))
            best[name] = under[0] + spent.get((name, "proof"), 0), under[1] + [name]
        return best[name]

    return max((chain(it) for it in rows), default=(0, []))


def page(spent, last):
    rows = crates()
    out = ["# Times", ""]
    out += ["Written by `python3 scripts/times.py`, never by hand. Lines are code, definitions, and lemmas with answers. Seconds are of a",
            "processor: the proof of the crate, the proof of its tests, and all its must-fail edits with the proof that they begin from.", ""]
    out += last + [""]
    out += ["| Crate | Code | Definitions | Proofs | Functions | Edits | Proof s | Tests s | Edits s |", "|---|---|---|---|---|---|---|---|---|"]
    sums = [0] * 8
    for name in rows:
        folder = os.path.join(ROOT, "crates", name)
        cells = [lines_of(f"{folder}/src", ".rt"), lines_of(f"{folder}/specs", ".antt"), lines_of(f"{folder}/proofs", ".antt"),
                 functions_of(f"{folder}/src"), edits_of(f"{folder}/must-fail")]
        times = [spent.get((name, kind)) for kind in KINDS]
        sums = [a + (b or 0) for a, b in zip(sums, cells + times)]
        out.append(f"| `{name}` | " + " | ".join(f"{it:,}" for it in cells) + " | " + " | ".join("" if it is None else str(round(it)) for it in times) + " |")
    out.append("| all | " + " | ".join(f"{round(it):,}" for it in sums) + " |")
    seconds, names = longest_chain(rows, spent)
    out += ["", f"The longest chain of proofs takes {round(seconds)} s: " + ", ".join(f"`{it}`" for it in names) + ".", ""]
    with open(PAGE, "w", encoding="utf-8") as file:
        file.write("\n".join(out))


def last_run():
    """The sentence on the last run, as it stands in the page."""
    if os.path.isfile(PAGE):
        with open(PAGE, encoding="utf-8") as file:
            return [it.rstrip("\n") for it in file if it.startswith("The last run ")]
    return []


def main(words):
    spent, status, last = kept_times(), 0, last_run()
    if words[:1] != ["--table"]:
        command = words or ["rt", "ci"]
        before = dict(spent)
        status, clock, new = watch(command, lambda so_far: page({**before, **so_far}, last))
        spent.update(new)
        last = [f"The last run of `{' '.join(command)}` took {round(clock / 60)} minutes by the clock and {round(sum(new.values()) / 60)} of a "
                f"processor, on {os.cpu_count()} processors; what an earlier run had kept isn't in these."]
    page(spent, last)
    return status


if __name__ == "__main__":
    sys.exit(main(sys.argv[1:]))
