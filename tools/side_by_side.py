"""Commands that run side by side, each with a log of its own, and that a signal ends together."""
import contextlib
import dataclasses
import os
import pathlib
import shutil
import signal
import subprocess
import sys
import time
from collections.abc import Collection

MEMORY_OF_ONE = 3 << 30
STOPS = (signal.SIGHUP, signal.SIGINT, signal.SIGQUIT, signal.SIGTERM)


@dataclasses.dataclass
class Ended:
    name: str
    status: int
    seconds: float
    processor_seconds: float
    share: int
    log: pathlib.Path


def processors() -> int:
    """How many commands go side by side here: one for each processor, as far as the memory goes that is free."""
    words = dict(it.split(":", 1) for it in pathlib.Path("/proc/meminfo").read_text().splitlines())
    free = 1024 * int(words["MemAvailable"].split()[0])
    return max(1, min(len(os.sched_getaffinity(0)), free // MEMORY_OF_ONE))


def read_words(usage: str, known: Collection[str]) -> tuple[int, list[str]]:
    """The number behind -j, or one for each processor, and the names behind it; a name that isn't known ends this."""
    words, jobs = sys.argv[1:], processors()
    if len(words) > 1 and words[0] == "-j" and words[1].isdigit():
        jobs, words = max(1, int(words[1])), words[2:]
    unknown = [it for it in words if it not in known]
    if unknown:
        print(f"no crate is called {unknown[0]}", usage, sep="\n\n", file=sys.stderr)
        sys.exit(2)
    return jobs, words


def prepare(logs: pathlib.Path) -> None:
    """Makes the folder for logs; ends this where it can't be made, or where there is no `rt`."""
    try:
        logs.mkdir(parents=True, exist_ok=True)
        (logs / "spent").write_text("")
    except OSError:
        sys.exit(f"no file can be written in {logs}")
    if not shutil.which("rt"):
        sys.exit("the command rt is not here")


def say(*lines: str, to=None) -> None:
    """Prints lines to standard output, or to another stream; where nobody takes them the work goes on without."""
    stream = to or sys.stdout
    try:
        print(*lines, sep="\n", file=stream, flush=True)
    except OSError:
        os.dup2(os.open(os.devnull, os.O_WRONLY), stream.fileno())


class SideBySide:
    """Runs commands in the body of a `with`; what still runs at its end is ended."""

    def __init__(self) -> None:
        self.running: dict[int, tuple[str, subprocess.Popen, float, int, pathlib.Path]] = {}

    def __enter__(self) -> "SideBySide":
        for it in STOPS:
            signal.signal(it, lambda number, _: sys.exit(128 + number))
        return self

    def __exit__(self, *_) -> None:
        for it in STOPS:
            signal.signal(it, signal.SIG_IGN)
        with contextlib.suppress(OSError):
            for pid in self.running:
                os.killpg(pid, signal.SIGTERM)
            while self.running:
                self.next()

    def start(self, name: str, words: list[str], folder: pathlib.Path, log: pathlib.Path, share: int = 1, stdin=None):
        """Starts a command, which counts as so many processors until it ends."""
        with log.open("wb") as out, open(stdin or os.devnull, "rb") as given:
            how = {"cwd": folder, "stdin": given, "stdout": out, "stderr": subprocess.STDOUT}
            process = subprocess.Popen(words, start_new_session=True, **how)
        self.running[process.pid] = name, process, time.monotonic(), share, log

    def used(self) -> int:
        return sum(share for _, _, _, share, _ in self.running.values())

    def next(self) -> Ended:
        """Waits until one of the commands ends."""
        pid = None
        while pid not in self.running:
            pid, status, usage = os.wait4(-1, 0)
        name, process, since, share, log = self.running.pop(pid)
        process.returncode = os.WEXITSTATUS(status) if os.WIFEXITED(status) else 128 + os.WTERMSIG(status)
        spent = usage.ru_utime + usage.ru_stime
        return Ended(name, process.returncode, time.monotonic() - since, spent, share, log)
