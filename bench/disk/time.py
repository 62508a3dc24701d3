"""Times versions of the program `apply` in turn, on a disk and in memory. Called by disk.sh: time.py APPLY .."""
import os
import re
import shutil
import subprocess
import sys
import tempfile

sys.dont_write_bytecode = True
sys.path.insert(0, f"{os.path.dirname(os.path.realpath(__file__))}/..")
from timing import made, timed

BLOCKS, TIMES, SECONDS = 2000, 5, 300
# A row of strace: percentage, seconds, microseconds a call, calls, errors, name.
SYNCS = re.compile(r"^\s*[\d.]+\s+[\d.]+\s+\d+\s+(\d+)\s.*fdatasync$", re.M)


def in_folder(where, config, use):
    """Makes a folder with the configuration, calls `use` with it, and removes it."""
    folder = tempfile.mkdtemp(prefix="disk-", dir=where)
    try:
        with open(f"{folder}/main.tf.json", "w", encoding="utf-8") as it:
            it.write(config)
        return use(folder)
    finally:
        shutil.rmtree(folder, ignore_errors=True)


def syncs_of(program, workers, config):
    """Returns how often an apply on the disk syncs data, or None without `strace`."""
    if not shutil.which("strace"):
        return None

    def count(folder):
        traced = ["strace", "-f", "-c", "-e", "trace=fdatasync", "-o", f"{folder}/counts", program, "--parallelism", workers]
        subprocess.run(traced, cwd=folder, stdout=subprocess.DEVNULL, check=True)
        with open(f"{folder}/counts", encoding="utf-8") as it:
            found = SYNCS.search(it.read())
        return int(found[1]) if found else 0

    return in_folder(None, config, count)


def main(programs):
    print(f"{'shape':12} {'workers':>7} {'where':6} " + " ".join(f"{'ms':>8}" for _ in programs) + "   syncs of each")
    for shape in ("independent", "layers"):
        config = made(shape, BLOCKS)
        for workers in ("1", "10"):
            for name, where in (("disk", None), ("memory", "/dev/shm")):
                runs = [[] for _ in programs]
                for _ in range(TIMES):
                    for taken, program in zip(runs, programs):
                        words = [program, "--parallelism", workers]
                        taken.append(in_folder(where, config, lambda folder: timed(words, folder, {}, SECONDS)))
                best = [min(it.wall for it in taken if it) * 1000 for taken in runs]
                syncs = [syncs_of(it, workers, config) for it in programs] if name == "disk" else []
                print(f"{shape:12} {workers:>7} {name:6} " + " ".join(f"{it:8.0f}" for it in best) + "   " + " ".join(map(str, syncs)), flush=True)


if __name__ == "__main__":
    main([os.path.realpath(it) for it in sys.argv[1:]])
