"""Times the programs `plan` and `apply` and Terraform on the same graphs. Called by beside_terraform.sh: time.py PLAN APPLY."""
import importlib.machinery
import importlib.util
import json
import os
import shutil
import subprocess
import sys
import tempfile

HERE = os.path.dirname(os.path.realpath(__file__))
sys.dont_write_bytecode = True
sys.path.insert(0, f"{HERE}/..")
from timing import made, timed

SHAPES = os.environ.get("SHAPES", "independent chains layers counted indexed").split()
SIZES = [int(it) for it in os.environ.get("SIZES", "100 500 2000").split()]
SECONDS = float(os.environ.get("SECONDS_EACH", "120"))
# How often each run is repeated, by the largest size up to which it is.
REPEATS = ((100, 3), (500, 2), (2000, 1))
# More instances of these shapes have more than 200,000 pairs of actions.
MOST = {"indexed": 894}
STEPS = ("plan", "apply", "plan again")


def beside():
    """Returns the module of tools/beside_terraform, which translates configurations."""
    loader = importlib.machinery.SourceFileLoader("beside", f"{HERE}/../../tools/beside_terraform")
    module = importlib.util.module_from_spec(importlib.util.spec_from_loader("beside", loader))
    loader.exec_module(module)
    return module


def steps_here(programs, config, folder):
    with open(f"{folder}/main.tf.json", "w", encoding="utf-8") as it:
        json.dump(config, it)
    plan, apply = programs
    return [[plan], [apply], [plan]], {}


def steps_there(module, config, folder):
    with open(f"{folder}/main.tf.json", "w", encoding="utf-8") as it:
        json.dump(module.translated(config), it)
    quiet = ["-no-color", "-input=false"]
    init = ["terraform", "init", "-no-color"]
    subprocess.run(init, cwd=folder, env={**os.environ, **module.QUIET}, stdout=subprocess.DEVNULL, check=True)
    plan, apply = ["terraform", "plan", *quiet], ["terraform", "apply", *quiet, "-auto-approve"]
    return [plan, apply, plan], module.QUIET


def taken_by(make_steps):
    """Returns what each step of one run took; None for those from the first that didn't end in time."""
    folder = tempfile.mkdtemp(prefix="beside-")
    try:
        steps, quiet = make_steps(folder)
        found = []
        for words in steps:
            found.append(timed(words, folder, quiet, SECONDS) if None not in found else None)
        return found
    finally:
        shutil.rmtree(folder, ignore_errors=True)


def best_of(runs):
    """Returns for each step the run with the least wall-clock time, or None if none ended."""
    best = []
    for step in zip(*runs):
        ended = [it for it in step if it]
        best.append(min(ended, key=lambda it: it.wall) if ended else None)
    return best


def times(theirs, ours):
    return f"{theirs / ours:8.0f}" if ours > 0 else "       -"


def row(shape, size, step, ours, theirs):
    words = f"{shape:12} {size:5} {step:10} {ours.wall * 1000:8.1f} {ours.processor * 1000:8.1f} {ours.memory:6.1f}"
    if theirs is None:
        return f"{words} {'over':>8} {SECONDS:7.0f}s"
    there = f"{theirs.wall * 1000:8.0f} {theirs.processor * 1000:8.0f} {theirs.memory:6.0f}"
    ratios = f"{times(theirs.wall, ours.wall)} {times(theirs.processor, ours.processor)} {theirs.memory / max(ours.memory, 0.1):6.0f}"
    return f"{words} {there} {ratios}"


def main(programs):
    module = beside()
    print(f"{'':29} {'here':>24} {'Terraform':>24} {'times as much there':>24}")
    print(f"{'shape':12} {'count':>5} {'step':10} " + " ".join(["  wall ms   cpu ms     MB"] * 2) + "     wall      cpu     MB", flush=True)
    for shape in SHAPES:
        for size in SIZES:
            size = min(size, MOST.get(shape, size))
            config, repeats = json.loads(made(shape, size)), next(count for most, count in REPEATS if size <= most)
            ours, theirs = [], []
            for _ in range(repeats):
                ours.append(taken_by(lambda folder: steps_here(programs, config, folder)))
                theirs.append(taken_by(lambda folder: steps_there(module, config, folder)))
            for step, one, other in zip(STEPS, best_of(ours), best_of(theirs)):
                print(row(shape, size, step, one, other), flush=True)


if __name__ == "__main__":
    main([os.path.realpath(it) for it in sys.argv[1:3]])
