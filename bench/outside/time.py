"""Times `apply` with the provider `sim` compiled in and with the same provider in Python. Called by outside.sh:
time.py APPLY BLOCKS TIMES"""
import os
import shutil
import subprocess
import sys
import tempfile

sys.dont_write_bytecode = True
BENCH = f"{os.path.dirname(os.path.realpath(__file__))}/.."
sys.path.insert(0, BENCH)
from timing import made, timed

PROVIDER = os.path.realpath(f"{BENCH}/../tools/sim.py")
SHAPES, IN_FLIGHT, SECONDS = ("independent", "counted", "layers", "chains"), (1, 10, 64), 900
MEMORY = "/dev/shm" if os.access("/dev/shm", os.W_OK) else None
# Starts a provider on the pipes of its folder; the second one keeps the requests in a file too.
ON_PIPES = 'exec "$0" <"$1/requests" >"$1/replies"'
KEPT = 'tee "$1/kept" <"$1/requests" | "$0" >"$1/replies"'


class Site:
    """A folder with a configuration, in which `apply` runs."""

    def __init__(self, apply, folder, shape, blocks):
        self.apply, self.folder, self.provider = apply, folder, f"{folder}/provider"
        with open(f"{folder}/main.tf.json", "w", encoding="utf-8") as it:
            it.write(made(shape, blocks))
        os.mkdir(self.provider)
        with open(f"{self.provider}/schemas.json", "w", encoding="utf-8") as it:
            subprocess.run([PROVIDER, "--schemas"], stdout=it, check=True)
        for name in ("requests", "replies"):
            os.mkfifo(f"{self.provider}/{name}")

    def clear(self):
        """Removes the state and what is next to it."""
        for name in os.listdir(self.folder):
            if name.startswith("terraform.tfstate"):
                os.remove(f"{self.folder}/{name}")

    def state(self):
        with open(f"{self.folder}/terraform.tfstate", "rb") as it:
            return it.read()

    def timed(self, *words):
        self.clear()
        return timed([self.apply, *words], self.folder, {}, SECONDS)

    def inside(self, most):
        """Times an apply with the provider that is compiled in."""
        return self.timed("--parallelism", str(most))

    def outside(self, most, how=ON_PIPES):
        """Times an apply with the provider in Python, and returns what the program and what the provider took."""
        served = subprocess.Popen(["sh", "-c", how, PROVIDER, self.provider])
        taken = self.timed("--parallelism", str(most), "--provider", self.provider)
        if taken is None:
            served.kill()
        usage = os.wait4(served.pid, 0)[2]
        served.returncode = 0
        return taken, usage.ru_utime + usage.ru_stime

    def alone(self):
        """Times the provider alone, on the requests that were kept."""
        words = ["sh", "-c", 'exec "$0" <"$1/kept" >/dev/null', PROVIDER, self.provider]
        return timed(words, self.folder, {}, SECONDS)


def compare(site):
    """Keeps the requests of an apply, and checks that it leaves the state that an apply with the other provider leaves."""
    site.outside(10, KEPT)
    left = site.state()
    site.inside(10)
    if site.state() != left:
        sys.exit("the states differ")


def least(runs):
    """Returns the least wall-clock and processor time of runs, in milliseconds."""
    return min(it.wall for it in runs) * 1000, min(it.processor for it in runs) * 1000


def row(site, shape, most, times):
    inside, alone, outside, of_provider = [], [], [], []
    for _ in range(times):
        inside.append(site.inside(most))
        alone.append(site.alone())
        taken, provider = site.outside(most)
        if taken is None:
            print(f"{shape:12} {most:>9}   no end in {SECONDS} seconds", flush=True)
            return
        outside.append(taken)
        of_provider.append(provider)
    (wall, processor), (own, own_processor), (together, engine) = map(least, (inside, alone, outside))
    numbers = f"{wall:7.0f} {processor:7.0f} {own:8.0f} {own_processor:7.0f} {together:8.0f} {engine:7.0f} {min(of_provider) * 1000:8.0f}"
    print(f"{shape:12} {most:>9} {numbers} {together / (wall + own):6.2f} {engine / processor:6.2f}", flush=True)


def main(apply, blocks, times):
    print(f"{'shape':12} {'in flight':>9} {'sim':>7} {'CPU':>7} {'alone':>8} {'CPU':>7} {'outside':>8} {'CPU':>7} {'provider':>8} {'ratio':>6} {'CPU':>6}")
    for shape in SHAPES:
        folder = tempfile.mkdtemp(prefix="outside-", dir=MEMORY)
        try:
            site = Site(apply, folder, shape, blocks)
            compare(site)
            for most in IN_FLIGHT:
                row(site, shape, most, times)
        finally:
            shutil.rmtree(folder, ignore_errors=True)


if __name__ == "__main__":
    main(os.path.realpath(sys.argv[1]), *map(int, sys.argv[2:]))
