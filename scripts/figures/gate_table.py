"""Runs the gate, and prints what each crate costs as the table of docs/PROOF_NOTES.md.

    python3 -m scripts.figures.gate_table [--anew] [CRATE..]

runs `rt ci` with these words, lets its output through, and looks every fifth of a second at the processes that it
started: which crate each one checks, and for what. The figures are seconds of processor time. What an earlier run
on this machine has passed is not proved again and costs nothing here, so a whole table wants `--anew`. `RT_JOBS=4`
before it has four crates proved at once, each by one job, as the gate does on four processors. The status is that of
`rt ci`.
"""

import os
import re
import resource
import subprocess
import sys
import threading
from collections import defaultdict
from pathlib import Path

ROOT = Path(__file__).resolve().parents[2]
INTERVAL = 0.2
TICKS = os.sysconf("SC_CLK_TCK")


class Watch:
    """Adds up the processor time of a process's descendants, by crate and purpose."""

    def __init__(self, root):
        self.root = root
        self.ended = threading.Event()
        self.seen = {}

    def run(self):
        while not self.ended.wait(INTERVAL):
            self.look()

    def look(self):
        parents, ticks = {}, {}
        for entry in os.listdir("/proc"):
            if entry.isdigit():
                try:
                    fields = Path(f"/proc/{entry}/stat").read_text().rpartition(")")[2].split()
                except OSError:
                    continue
                parents[int(entry)] = int(fields[1])
                ticks[int(entry)] = (int(fields[11]) + int(fields[12]), fields[19])
        for pid, (spent, started) in ticks.items():
            if self.is_below(pid, parents):
                key = (pid, started)
                earlier = self.seen.get(key)
                self.seen[key] = (spent, earlier[1] if earlier and earlier[1] else self.purpose(pid))

    def is_below(self, pid, parents):
        while pid in parents:
            if pid == self.root:
                return True
            pid = parents[pid]
        return False

    @staticmethod
    def purpose(pid):
        """The crate that a process checks, and whether that is for its proof, its tests or its edits."""
        try:
            words = Path(f"/proc/{pid}/cmdline").read_bytes().decode(errors="replace").split("\0")
            folder = os.readlink(f"/proc/{pid}/cwd")
        except OSError:
            return None
        if "--crate-name" not in words:
            return None
        crate = words[words.index("--crate-name") + 1]
        if "rt-edit" in folder:
            return crate, "edits"
        return crate.removesuffix("_tests"), "tests" if "--test" in words else "proof"

    def seconds(self):
        spent = defaultdict(float)
        for ticks, purpose in self.seen.values():
            if purpose:
                spent[purpose] += ticks / TICKS
        return spent


def functions_of(crate):
    files = (ROOT / "crates" / crate / "src").rglob("*.rt")
    return sum(len(re.findall(r"^\s*(?:pub )?(?:const )?fn \w", file.read_text(), re.M)) for file in files)


def table(spent, refused):
    crates = [line.split(":")[0].split()[0] for line in (ROOT / "crates.txt").read_text().splitlines() if ":" in line.split("#")[0]]
    print("\n| crate | functions | proof | tests | edits | number of edits |\n|---|---|---|---|---|---|")
    sums = defaultdict(float)
    for crate in crates:
        figures = {what: spent.get((crate, what), 0) for what in ("proof", "tests", "edits")}
        for what, seconds in figures.items():
            sums[what] += seconds
        shown = " | ".join(f"{figures[what]:.0f}" if figures[what] else "" for what in ("proof", "tests", "edits"))
        row = f"| `{crate}` | {functions_of(crate)} | {shown} | {refused.get(crate, '')} |"
        print(re.sub(r"[ |]+$", " |", row))
    print(f"| all | {sum(map(functions_of, crates))} | {sums['proof']:.0f} | {sums['tests']:.0f} | {sums['edits']:.0f} | {sum(refused.values())} |")


def main(words):
    gate = subprocess.Popen(["rt", "ci", *words], cwd=ROOT, stdin=subprocess.DEVNULL, stdout=subprocess.PIPE, stderr=subprocess.STDOUT, text=True, errors="replace")
    watch = Watch(gate.pid)
    watcher = threading.Thread(target=watch.run)
    watcher.start()
    refused = defaultdict(int)
    for line in gate.stdout:
        sys.stdout.write(line)
        sys.stdout.flush()
        found = re.match(r"rt: must-fail (\w+)/\S+: refused", line)
        if found:
            refused[found.group(1)] += 1
    status = gate.wait()
    watch.ended.set()
    watcher.join()
    table(watch.seconds(), refused)
    used = resource.getrusage(resource.RUSAGE_CHILDREN)
    print(f"\nProcessor time of the whole run: {(used.ru_utime + used.ru_stime) / 60:.0f} minutes.")
    return status


if __name__ == "__main__":
    sys.exit(main(sys.argv[1:]))
