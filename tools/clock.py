"""The processor time of the checks that run in a folder, by crate and part of the gate."""
import os
import threading
import time


class Clock(threading.Thread):
    """Looks once a second at how much processor time each check in a folder has taken, by crate and part of the gate."""

    def __init__(self, room):
        super().__init__(daemon=True)
        self.room, self.taken, self.ticks = os.path.realpath(room), {}, os.sysconf("SC_CLK_TCK")

    def look(self):
        found = {}
        for pid in filter(str.isdigit, os.listdir("/proc")):
            try:
                with open(f"/proc/{pid}/cmdline", "rb") as it:
                    words = it.read().decode(errors="replace").split("\0")
                if not words[0].endswith("/rattle") or "--crate-name" not in words:
                    continue
                place = os.readlink(f"/proc/{pid}/cwd")
                with open(f"/proc/{pid}/stat", encoding="utf-8", errors="replace") as it:
                    stat = it.read().rpartition(")")[2].split()
            except OSError:
                continue
            name = words[words.index("--crate-name") + 1]
            part = "edits" if "/rt-edit-" in place else "tests" if "--test" in words else "proof"
            if place.startswith(self.room):
                found[pid] = name, part, stat
        for pid, (name, part, stat) in found.items():
            # A check's own forks: what they took is in its own numbers once they have ended.
            if found.get(stat[1], (None, None))[:2] != (name, part):
                self.taken[name, part, pid] = sum(map(int, stat[11:15])) / self.ticks

    def run(self):
        while True:
            self.look()
            time.sleep(1)

    def seconds(self, name, part):
        """Returns the seconds that a part of a crate has taken."""
        return round(sum(it for (crate, of, _), it in [*self.taken.items()] if (crate, of) == (name, part)))
