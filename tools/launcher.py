"""The launcher `bixundor` in a folder of its own, with programs that are already built, for tools that run it."""
import os
import shutil

ROOT = os.path.dirname(os.path.dirname(os.path.realpath(__file__)))


def place(room, plan, apply):
    """Copies the launcher and the modules for providers into a room, where these two programs are the ones that the launcher runs,
    also after the word `try`."""
    shutil.copy(f"{ROOT}/bixundor", room)
    shutil.copytree(f"{ROOT}/sdk", f"{room}/sdk", ignore=shutil.ignore_patterns("__pycache__"))
    # The launcher builds a program that is older than a source: there is one source, which is as old as can be.
    with open(f"{room}/crates.txt", "w", encoding="utf-8"):
        os.utime(f"{room}/crates.txt", (0, 0))
    for name, program in (("plan", plan), ("apply", apply)):
        os.makedirs(f"{room}/crates/{name}/out")
        for file in (name, f"{name}.unproved"):
            os.symlink(os.path.realpath(program), f"{room}/crates/{name}/out/{file}")
