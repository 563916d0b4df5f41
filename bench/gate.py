"""Runs `rt ci` and prints a table of its time by crate: processor seconds of the proof, the tests and the must-fail edits."""
import collections
import os
import resource
import subprocess
import sys
import threading
import time

TICKS = os.sysconf("SC_CLK_TCK")
# Seconds between two looks at the processes. A process's time after the last look at it is in no row of the table.
PAUSE = 0.1
KINDS = ("proof", "tests", "edits")


def parent_and_seconds(pid):
    """The parent of a process, and the processor seconds that it has used itself; None if it has ended."""
    try:
        with open(f"/proc/{pid}/stat", "rb") as it:
            fields = it.read().rpartition(b")")[2].split()
    except OSError:
        return None
    return int(fields[1]), (int(fields[11]) + int(fields[12])) / TICKS


def work_of(pid):
    """The crate and the kind of work that a process of the prover has, or None for any other process."""
    try:
        with open(f"/proc/{pid}/cmdline", "rb") as it:
            words = it.read().decode(errors="replace").split("\0")
        folder = os.readlink(f"/proc/{pid}/cwd")
    except OSError:
        return None
    if "--crate-name" not in words:
        return None
    crate = words[words.index("--crate-name") + 1]
    if os.path.basename(folder).startswith("rt-edit-"):
        return crate, "edits"
    return crate, "tests" if "--test" in words else "proof"


class Watch:
    """Looks at all processes below the gate until it is told to stop."""

    def __init__(self, gate):
        self.gate = gate
        self.works = {}
        self.seconds = {}
        self.ends = {}
        self.begun = time.monotonic()

    def look(self):
        found = {int(it): parent_and_seconds(it) for it in os.listdir("/proc") if it.isdigit()}
        parents = {pid: it[0] for pid, it in found.items() if it}
        for pid, it in found.items():
            if not it or not self.is_below(pid, parents):
                continue
            if pid not in self.works:
                work = work_of(pid)
                if not work:
                    continue
                self.works[pid] = work
            self.seconds[pid] = it[1]
            self.ends[self.works[pid]] = time.monotonic() - self.begun

    def is_below(self, pid, parents):
        while pid in parents:
            pid = parents[pid]
            if pid == self.gate:
                return True
        return False

    def table(self):
        """For each crate the seconds of each kind, and when its last process was seen."""
        rows = collections.defaultdict(lambda: dict.fromkeys(KINDS, 0.0))
        for pid, (crate, kind) in self.works.items():
            rows[crate][kind] += self.seconds[pid]
        return rows


def print_table(watch):
    rows = watch.table()
    print(f"\n{'crate':20}" + "".join(f"{it:>10}" for it in KINDS) + f"{'sum':>10}{'proved at':>12}{'done at':>10}")
    for crate, row in sorted(rows.items(), key=lambda it: -sum(it[1].values())):
        ends = [watch.ends.get((crate, it), 0) / 60 for it in KINDS]
        seconds = "".join(f"{row[it]:10.0f}" for it in KINDS)
        print(f"{crate:20}{seconds}{sum(row.values()):10.0f}{ends[0]:9.1f} min{max(ends):6.1f} min")
    sums = [sum(row[it] for row in rows.values()) for it in KINDS]
    print(f"{'all':20}" + "".join(f"{it:10.0f}" for it in sums) + f"{sum(sums):10.0f}")


def main(words):
    before = resource.getrusage(resource.RUSAGE_CHILDREN)
    gate = subprocess.Popen(words)
    watch, over = Watch(gate.pid), threading.Event()

    def look_on():
        while not over.wait(PAUSE):
            watch.look()

    looks = threading.Thread(target=look_on)
    looks.start()
    status = gate.wait()
    over.set()
    looks.join()
    clock = time.monotonic() - watch.begun
    after = resource.getrusage(resource.RUSAGE_CHILDREN)
    spent = after.ru_utime + after.ru_stime - before.ru_utime - before.ru_stime
    print_table(watch)
    print(f"processor seconds of the rows; of all processes {spent / 60:.1f} processor minutes, in {clock / 60:.1f} minutes")
    return status


if __name__ == "__main__":
    sys.exit(main(sys.argv[1:]))
