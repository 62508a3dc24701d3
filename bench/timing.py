"""Runs commands and says what they took."""
import os
import re
import subprocess
import sys
import time


class Taken:
    """What a run took: wall-clock and processor time in seconds, memory in megabytes."""

    def __init__(self, wall, processor, memory):
        self.wall, self.processor, self.memory = wall, processor, memory


def timed(words, folder, more_environment, seconds):
    """Runs a command in a folder, and returns what it took, or None if it didn't end in so many seconds. Exits if it fails."""
    began, status, usage, memory = time.monotonic(), None, None, 0
    with open(f"{folder}/printed", "wb") as out:
        ran = subprocess.Popen(words, cwd=folder, env={**os.environ, **more_environment}, stdin=subprocess.DEVNULL, stdout=out, stderr=out)
        while status is None:
            memory = peak(ran.pid) or memory
            pid, code, usage = os.wait4(ran.pid, os.WNOHANG)
            if pid:
                status = os.waitstatus_to_exitcode(code)
            elif time.monotonic() - began > seconds:
                ran.kill()
                os.wait4(ran.pid, 0)
                return None
            else:
                time.sleep(0.0005)
    wall = time.monotonic() - began
    if status:
        with open(f"{folder}/printed", errors="replace") as it:
            sys.exit(f"{' '.join(words)}: status {status}: {it.read()[-400:]}")
    return Taken(wall, usage.ru_utime + usage.ru_stime, memory)


def peak(pid):
    """Returns the most memory that a running process has had, in megabytes. What wait4 says counts this process too, of which it is a
    copy at first."""
    try:
        with open(f"/proc/{pid}/status", encoding="ascii") as it:
            found = re.search(r"^VmHWM:\s+(\d+) kB", it.read(), re.M)
    except OSError:
        return None
    return int(found[1]) / 1024 if found else None


def made(shape, count):
    """Returns the text of a configuration that runs/make.py makes."""
    make = f"{os.path.dirname(os.path.realpath(__file__))}/runs/make.py"
    return subprocess.run([sys.executable, make, shape, str(count)], stdout=subprocess.PIPE, text=True, check=True).stdout
