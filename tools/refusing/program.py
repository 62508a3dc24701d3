"""The program `scarce_memory`, compiled once by `rt try --fail-alloc`, and its runs."""
import collections
import os
import re
import resource
import shutil
import subprocess
import sys
import time

sys.path.append(os.path.dirname(os.path.dirname(os.path.realpath(__file__))))
from placed import place, start_trying

# The number of the allocation that the compiled program refuses. A run makes allocations before its plan, as many as are needed for
# the chosen one to have this number. Without any before its plan, no run makes so many.
REFUSED = 6000
# Each run may use this number of bytes more than the one before.
STEP = 1 << 16
# More than any program may have.
ENDLESS = 1 << 47
# A run that takes longer than this number of seconds hangs.
SECONDS = 120
# For the checks that the kit compiles into the program: they report to it that there is no memory, let it use again what it frees,
# and take no memory for that themselves.
CHECKS = {
    "allocator_may_return_null": 1,
    "quarantine_size_mb": 0,
    "thread_local_quarantine_size_kb": 0,
    "clear_shadow_mmap_threshold": 1 << 30,
    "detect_stack_use_after_return": 0,
}
OPTIONS = {"ASAN_OPTIONS": ":".join(f"{name}={number}" for name, number in CHECKS.items())}

Ended = collections.namedtuple("Ended", "met closed calls whole changed written outcomes excused journal good state shown status")
Given = collections.namedtuple("Given", "config state actions")


def compiled(room):
    """Has `rt try` compile the program, and copies its file into the folder while it waits for its configuration at a pipe."""
    pipe, program, end = f"{room}/pipe", f"{room}/scarce_memory", None
    os.mkfifo(pipe)
    words = ["--fail-alloc", str(REFUSED), "--", "one", pipe, "none", "1", "0", "0"]
    how = {"stdin": subprocess.DEVNULL, "stdout": subprocess.PIPE, "stderr": subprocess.STDOUT, "text": True}
    ran = start_trying(words, cwd=place(room, "scarce_memory"), env={**os.environ, "TMPDIR": room}, **how)
    while ran.poll() is None and end is None:
        try:
            end = os.open(pipe, os.O_WRONLY | os.O_NONBLOCK)
        except OSError:
            time.sleep(0.1)
    if end is not None:
        files = [f"{at}/program" for at, _, names in os.walk(room) if "program" in names]
        shutil.copy(files[0], program)
        os.write(end, b"{}")
        os.close(end)
    said = ran.communicate()[0]
    if not os.path.isfile(program):
        raise SystemExit(f"{said}\nscarce_memory wasn't compiled")
    return program


def limited(words, threads, memory):
    """Returns the words of a command with limits: if no thread may start, the threads' stacks are larger than the address space; and it
    may use the given number of bytes of memory."""
    most = resource.getrlimit(resource.RLIMIT_STACK)[1]
    stack = ENDLESS if most == resource.RLIM_INFINITY else min(ENDLESS, most)
    held = [] if threads else [f"ulimit -S -s {stack // 1024}"]
    held += [] if memory is None else [f"ulimit -d {memory // 1024}"]
    return ["sh", "-c", "; ".join([*held, 'exec "$@"']), "", *words] if held else words


class Program:
    """A compiled program."""

    def __init__(self, file, kit):
        libraries = f"{kit}/toolchain/lib"
        self.words = [f"{libraries}/ld-linux-x86-64.so.2", "--inhibit-cache", "--library-path", libraries, file]

    def run(self, way, given, workers=1, before=0, after=0, forgets=(), threads=True, memory=None):
        """Carries a plan out, and returns how that ended, or a text that says what happened in its place."""
        actions = [f"{it}: no memory" if it in forgets else it for it in given.actions]
        words = [*self.words, way, given.config, given.state, str(workers), str(before), str(after), *actions]
        how = {"stdin": subprocess.DEVNULL, "capture_output": True, "env": OPTIONS if memory else {}}
        try:
            ran = subprocess.run(limited(words, threads, memory), timeout=SECONDS, check=False, **how)
        except subprocess.TimeoutExpired:
            return f"it hadn't ended after {SECONDS} seconds"
        said, errors = ran.stdout.decode(errors="replace"), ran.stderr.decode(errors="replace")
        if ran.returncode or errors:
            return f"status {ran.returncode}: {errors}{said}"
        return parsed(said)

    def first(self, way, given, workers):
        """Returns how many growths have to come before the plan so that its own first one is refused."""
        return last_so(0, REFUSED, lambda before: not isinstance(self.run(way, given, workers, before), str))

    def least(self, way, given, low=0, high=ENDLESS):
        """Returns the most memory, between two amounts, of which the program hasn't enough for itself."""
        is_little = lambda steps: isinstance(self.run(way, given, memory=steps * STEP), str)
        return last_so(low // STEP, high // STEP, is_little) * STEP


def last_so(low, high, is_so):
    """Returns the largest number below `high` of which something is so, where it is so of `low` and of all up to that one."""
    while high - low > 1:
        middle = (low + high) // 2
        low, high = (middle, high) if is_so(middle) else (low, middle)
    return low


def parsed(said):
    """Returns what the program printed."""
    head, _, rest = said.partition("--- shown\n")
    shown, _, status = rest.rpartition("--- status ")
    head, _, state = head.partition("--- state\n")
    told = {line.split()[0]: line.split(" ")[1:] for line in head.splitlines()}
    is_so = {name: told.get(name) == ["true"] for name in ("met", "closed", "whole", "changed", "written")}
    journal = [(int(at), op.lower()) for at, op in re.findall(r"action: (\d+), op: (\w+)", " ".join(told.get("journal", [])))]
    excused = [(kind, int(at)) for kind, at in re.findall(r"(\w+)\((\d+)\)", " ".join(told.get("excused", [])))]
    calls, good = ([int(it) for it in told.get(name, [])] for name in ("calls", "good"))
    rest = {"outcomes": told.get("outcomes"), "excused": excused, "journal": journal, "calls": calls, "good": good}
    return Ended(state=state, shown=shown, status=int(status), **is_so, **rest)
