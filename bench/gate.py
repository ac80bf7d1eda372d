#!/usr/bin/env python3
"""What the merge gate costs, in processor seconds by crate and by must-fail edit.

Usage: bench/gate.py run [NAME..]    runs `rt ci [NAME..]`, hands its output through, writes bench/gate.log and prints the table
       bench/gate.py table [LOG]     prints the table of a log again      (default: bench/gate.log)
       bench/gate.py keep [LOG]      puts what a log says of crates into bench/gate.table, with today's date

bench/gate.table is read by tools/what-changes and tools/test: in each line `proofs`, `tests`, `edits` or `try` (the
tests without proofs), a crate, processor seconds and a day.

Twice a second it reads from /proc which of its `rt ci`'s processes are at work, for which crate, and whether in a copy
that holds an edit. An edit's seconds are those of the copy that ended last before its line came. What `rt ci` keeps from
earlier runs costs nothing and has no row: `bench/gate.py run --anew` measures everything.
"""
import collections
import datetime
import os
import pathlib
import re
import subprocess
import sys
import threading

TOP = pathlib.Path(__file__).resolve().parent.parent
LOG = TOP / "bench" / "gate.log"
TABLE = TOP / "bench" / "gate.table"
HEAD = "# Kind of work, crate, processor seconds, and the day of the measurement; `bench/gate.py keep` writes this."
TICKS = os.sysconf("SC_CLK_TCK")
PAUSE = 0.5


class Samples:
    """The prover's processes below one process, with the processor time that each had when it was last seen."""

    def __init__(self, root: int) -> None:
        self.root = str(root)
        self.alive: dict[int, tuple[str, str, float]] = {}
        self.ended: dict[str, list[float]] = collections.defaultdict(list)
        self.spent: dict[tuple[str, str], float] = collections.defaultdict(float)
        self.lock = threading.Lock()

    def look(self) -> None:
        seen = {int(name): told for name in os.listdir("/proc") if name.isdigit() and (told := work_of(name, self.root))}
        with self.lock:
            for pid, (kind, crate, spent) in list(self.alive.items()):
                if pid not in seen:
                    self.end(pid, kind, crate, spent)
            self.alive.update(seen)

    def end(self, pid: int, kind: str, crate: str, spent: float) -> None:
        del self.alive[pid]
        self.spent[kind, crate] += spent
        if kind == "edits":
            self.ended[crate].append(spent)

    def edit(self, crate: str) -> float:
        self.look()
        with self.lock:
            return self.ended[crate].pop(0) if self.ended[crate] else 0.0


def status_of(pid: str) -> list[str]:
    """What /proc says of a process behind its name: its state, its parent and so on."""
    return pathlib.Path(f"/proc/{pid}/stat").read_text().rsplit(")", 1)[1].split()


def is_below(pid: str, root: str) -> bool:
    while pid not in (root, "0", "1"):
        pid = status_of(pid)[1]
    return pid == root


def work_of(pid: str, root: str) -> tuple[str, str, float] | None:
    """What a process does, for which crate, and its processor seconds; None where it isn't of the prover below root."""
    try:
        words = pathlib.Path(f"/proc/{pid}/cmdline").read_bytes().decode(errors="replace").split("\0")
        if "--crate-name" not in words or not is_below(pid, root):
            return None
        crate = words[words.index("--crate-name") + 1]
        folder = os.readlink(f"/proc/{pid}/cwd")
        fields = status_of(pid)
    except (OSError, IndexError):
        return None
    spent = (int(fields[11]) + int(fields[12])) / TICKS
    if "rt-edit-" in folder:
        return "edits", crate, spent
    # The tests of a crate are checked in its folder under another name; a crate may itself be named so.
    home = pathlib.Path(folder).name
    return "proofs" if crate == home and "--test" not in words else "tests", home, spent


def watch(samples: Samples, over: threading.Event) -> None:
    while not over.wait(PAUSE):
        samples.look()


def run(names: list[str]) -> int:
    how = {"stdout": subprocess.PIPE, "stderr": subprocess.STDOUT, "text": True, "errors": "replace"}
    edits, over = [], threading.Event()
    with subprocess.Popen(["rt", "ci", *names], cwd=TOP, **how) as gate:
        samples = Samples(gate.pid)
        watcher = threading.Thread(target=watch, args=(samples, over))
        watcher.start()
        for line in gate.stdout:
            sys.stdout.write(line)
            if told := re.match(r"rt: must-fail (\w+)/(\S+)\.edit: ", line):
                edits.append((*told.groups(), samples.edit(told[1])))
    over.set()
    watcher.join()
    samples.look()
    with LOG.open("w") as log:
        for (kind, crate), spent in sorted(samples.spent.items()):
            log.write(f"{kind} {crate} {spent:.1f}\n")
        for crate, edit, spent in edits:
            log.write(f"edit {crate}/{edit} {spent:.1f}\n")
    table(LOG)
    return gate.returncode


def table(path: pathlib.Path) -> None:
    rows: dict[str, dict[str, float]] = collections.defaultdict(lambda: collections.defaultdict(float))
    edits = []
    for line in path.read_text().splitlines():
        kind, name, spent = line.split()
        if kind == "edit":
            edits.append((float(spent), name))
        else:
            rows[name][kind] += float(spent)
    print(f"\n{'crate':<20}{'proofs':>9}{'tests':>9}{'edits':>9}{'together':>10}   (processor seconds)")
    for name, row in sorted(rows.items(), key=lambda it: -sum(it[1].values())):
        print(f"{name:<20}{row['proofs']:>9.0f}{row['tests']:>9.0f}{row['edits']:>9.0f}{sum(row.values()):>10.0f}")
    whole = sum(sum(row.values()) for row in rows.values())
    print(f"{'together':<20}{'':>27}{whole:>10.0f}   ({whole / 60:.0f} minutes)")
    print("\nthe dearest edits")
    for spent, name in sorted(edits, reverse=True)[:20]:
        print(f"{spent:>7.0f}  {name}")


def keep(path: pathlib.Path) -> None:
    """Puts the rows of a log in place of the table's for the same crates, and leaves the others."""
    rows = {}
    for line in TABLE.read_text().splitlines() if TABLE.exists() else []:
        if not line.startswith("#"):
            kind, name, spent, day = line.split()
            rows[name, kind] = spent, day
    for line in path.read_text().splitlines():
        kind, name, spent = line.split()
        if kind != "edit":
            rows[name, kind] = spent, datetime.date.today().isoformat()
    lines = [f"{kind} {name} {spent} {day}" for (name, kind), (spent, day) in sorted(rows.items())]
    TABLE.write_text("\n".join([HEAD, *lines, ""]))


def main() -> int:
    log = pathlib.Path(sys.argv[2]) if len(sys.argv) > 2 else LOG
    if len(sys.argv) > 1 and sys.argv[1] == "run":
        return run(sys.argv[2:])
    if len(sys.argv) > 1 and sys.argv[1] in ("table", "keep"):
        if not log.is_file():
            sys.exit(f"gate.py: there is no log {log}; bench/gate.py run writes bench/gate.log")
        (table if sys.argv[1] == "table" else keep)(log)
        return 0
    print(__doc__, file=sys.stderr)
    return 2


if __name__ == "__main__":
    sys.exit(main())
