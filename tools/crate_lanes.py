"""Crates side by side: which libraries each stands on, and lanes that work at as many as processors and memory allow."""
import ctypes
import fcntl
import os
import re
import shutil
import signal
import subprocess
import sys
import tempfile
import time

TOP = os.path.dirname(os.path.dirname(os.path.realpath(__file__)))
NOT_BUILT = 70
START = time.time()
# The lines of a log that say nothing of a failure.
COUNTS = re.compile(r"(statements|logic|axioms|crate) |\w+ \S+: proved|rt: chose |note: finished ")


def say(text):
    print(f"qgm: {text}", file=sys.stderr, flush=True)


def stop(text):
    say(text)
    sys.exit(NOT_BUILT)


def minutes():
    return f"{(time.time() - START) / 60:.1f} minutes"


def read_crates():
    """Returns the line of crates.txt of each crate, and all that it names: libraries of this repository and of the toolchain."""
    lines = {}
    with open(f"{TOP}/crates.txt", encoding="utf-8") as file:
        for line in file:
            name, _, uses = line.partition("#")[0].partition(":")
            if name.strip():
                lines[name.split()[0]] = line.rstrip("\n"), uses.replace(",", " ").split()
    return lines


def libraries_below(crate):
    """Returns each library of this repository below the crate, lowest first, with those that it names, and the crate itself last."""
    lines, below = read_crates(), {}

    def visit(name):
        for it in lines[name][1]:
            if it in lines and it not in below:
                visit(it)
        below[name] = [it for it in lines[name][1] if it in lines]

    if crate not in lines:
        stop(f"crates.txt has no crate {crate}")
    visit(crate)
    return below


def all_below(name, below):
    """Returns every library that the crate stands on."""
    found = set(below[name])
    for it in below[name]:
        found |= all_below(it, below)
    return found


def texts_of(name):
    """Returns the files that a proof of the crate reads."""
    found = []
    for part in ("src", "specs", "proofs"):
        for folder, _, files in os.walk(f"{TOP}/crates/{name}/{part}"):
            found += [f"{folder}/{it}" for it in files]
    return sorted(found)


def lines_in(name, ending):
    """Returns how many lines the crate's files of this ending have."""
    count = 0
    for file in texts_of(name):
        if file.endswith(ending):
            with open(file, "rb") as it:
                count += it.read().count(b"\n")
    return count


def measured_costs():
    """Returns about how many seconds of a processor the proof of each crate takes, by runs that were measured."""
    with open(f"{TOP}/tools/proof-seconds", encoding="utf-8") as file:
        lines = [line.partition("#")[0].split() for line in file]
    return {name: int(seconds) for name, seconds in filter(None, lines)}


def cost_of(name, measured):
    """Returns about how long a proof of the crate takes, in seconds of a processor: as measured, or by its lines of code.
    It says which proofs are begun first, and nothing else."""
    return measured.get(name) or 15 + lines_in(name, ".rt") // 6


def locked(folders):
    """Returns what keeps every other rt and launcher out of these folders until it is closed, as rt itself does."""
    held = []
    for folder in sorted(map(os.path.realpath, folders)):
        held.append(os.open(folder, os.O_RDONLY))
        try:
            fcntl.flock(held[-1], fcntl.LOCK_EX | fcntl.LOCK_NB)
        except BlockingIOError:
            say(f"waiting for another command to end in {folder}")
            fcntl.flock(held[-1], fcntl.LOCK_EX)
        except OSError:
            # some file systems have no locks
            pass
    return held


def dies_with_us():
    """Has a command end when this one is killed."""
    ctypes.CDLL(None).prctl(1, signal.SIGTERM)


def begun(words, folder, log):
    """Begins a command in the folder, with its output in the log."""
    with open(log, "w") as out:
        how = {"stdin": subprocess.DEVNULL, "stdout": out, "stderr": out, "preexec_fn": dies_with_us}
        return subprocess.Popen(words, cwd=folder, **how)


def fail(name, log):
    """Shows the end of the log of a crate that wasn't proved or built, keeps the whole, and stops."""
    with tempfile.NamedTemporaryFile("w", prefix="qgm-", suffix=".log", delete=False) as kept:
        with open(log, errors="replace") as it:
            text = it.read()
        kept.write(text)
    told = [it for it in text.splitlines() if not COUNTS.match(it)]
    print(*told[-20:], sep="\n", file=sys.stderr)
    stop(f"{name} was not proved and built; the whole log is {kept.name}")


def sweep():
    """Removes the rooms of commands that were killed."""
    folder = tempfile.gettempdir()
    for name in os.listdir(folder):
        of = re.match(r"qgm-build-(\d+)-", name)
        if of and not os.path.exists(f"/proc/{of[1]}"):
            shutil.rmtree(f"{folder}/{name}", ignore_errors=True)


def temporary_room():
    """Returns a folder for logs and copies, which goes when it is closed."""
    sweep()
    return tempfile.TemporaryDirectory(prefix=f"qgm-build-{os.getpid()}-")


def ends_on_signals():
    """Has this command end in order where it is told to."""
    for it in (signal.SIGINT, signal.SIGTERM, signal.SIGHUP):
        signal.signal(it, lambda number, _: sys.exit(128 + number))


class Lanes:
    """Work at crates, each begun once that at those below it is done. A user gives begin, which begins the work at a crate
    with so many jobs and returns the command, and done, which takes what came of it."""

    def __init__(self, below, room):
        self.below, self.room, self.left, self.running = below, room, [*below], {}
        self.lanes = len(os.sched_getaffinity(0))
        self.code = {it: lines_in(it, ".rt") for it in below}
        measured = measured_costs()
        self.cost = {it: cost_of(it, measured) for it in below}
        with open("/proc/meminfo") as it:
            self.memory = 0.85 * 1024 * int(re.search(r"MemAvailable:\s+(\d+)", it.read())[1])
        self.told, self.told_at = None, 0

    def behind(self, name):
        """Returns how long the proofs of the longest chain of crates that wait for this one take, itself among them."""
        return self.cost[name] + max((self.behind(it) for it in self.below if name in self.below[it]), default=0)

    def need(self, name):
        """Returns about how much memory a proof of the crate takes, in bytes."""
        lower = sum(self.code[it] for it in all_below(name, self.below))
        return 1_200_000_000 + 500_000 * self.code[name] + 150_000 * lines_in(name, ".antt") + 40_000 * lower

    def begin_ready(self):
        """Begins work at each crate whose libraries are done, the longest chain first, while processors and memory last."""
        undone = {*self.left, *(name for name, *_ in self.running.values())}
        ready = [it for it in self.left if not undone & {*self.below[it]}]
        ready.sort(key=self.behind, reverse=True)
        for number, name in enumerate(ready):
            idle = self.lanes - sum(jobs for _, jobs, _ in self.running.values())
            room = self.memory - sum(need for *_, need in self.running.values())
            need = self.need(name)
            if self.running and (idle <= 0 or need > room):
                return
            # processors that no other crate waits for help this one
            jobs = max(1, min(4, idle // (len(ready) - number), 1 + int((room / need - 1) / 0.6)))
            made = self.begin(name, jobs, f"{self.room}/{name}.log")
            self.left.remove(name)
            self.running[made] = name, jobs, need * (1 + 0.6 * (jobs - 1))

    def end(self):
        """Takes what came of the work that has ended since, and stops where it failed."""
        for made in [it for it in self.running if it.poll() is not None]:
            name, *_ = self.running[made]
            if made.returncode < 0:
                stop(f"the proof of {name} was ended by signal {-made.returncode}")
            if made.returncode:
                fail(name, f"{self.room}/{name}.log")
            self.done(name)
            del self.running[made]

    def tell(self):
        """Says how far it is, where that changed, and once a minute."""
        now, names = time.time(), ", ".join(name for name, *_ in self.running.values())
        if names and (now - self.told_at > 60 or names != self.told and now - self.told_at > 2):
            done = len(self.below) - len(self.left) - len(self.running)
            say(f"{done} of {len(self.below)} crates are built after {minutes()}; now {names}")
            self.told, self.told_at = names, now

    def run(self):
        try:
            while self.left or self.running:
                self.begin_ready()
                self.tell()
                time.sleep(0.1)
                self.end()
        finally:
            for it in self.running:
                it.terminate()
            for it, (name, *_) in self.running.items():
                it.wait()
                self.interrupted(name)

    def interrupted(self, name):
        """Keeps what can be kept of work that was ended, or that failed."""
