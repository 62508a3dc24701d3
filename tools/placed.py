"""The sources that are outside crates/, since nobody proves them: the programs of tools/programs, and the tests. To compile one, a
tool copies the repository and adds it to the crates of the copy."""
import os
import shutil
import signal
import subprocess
import threading
import time

ROOT = os.path.dirname(os.path.dirname(os.path.realpath(__file__)))
FOLDERS = (f"{ROOT}/tools/programs", f"{ROOT}/tests")
ENDING = ".rt.txt"


def source_of(name):
    """Returns the folder with the sources of a program or a library outside crates/, or None."""
    return next((f"{it}/{name}" for it in FOLDERS if os.path.isfile(f"{it}/{name}/libraries.txt")), None)


def place(room, name):
    """Copies the repository into a folder, adds a program or a library to the crates of the copy, with those that it uses, and returns
    its folder there."""
    copy = f"{room}/repository"
    shutil.copytree(ROOT, copy, ignore=lambda at, names: {it for it in names if it in (".git", "out", "must-fail")})
    os.mkdir(f"{copy}/.git")
    left, placed = [name], set()
    while left:
        crate = left.pop()
        if crate not in placed and source_of(crate):
            placed.add(crate)
            left += add(copy, crate)
    return f"{copy}/crates/{name}"


def add(copy, name):
    """Adds a crate to a copy of the repository, and returns the libraries that it uses."""
    source = source_of(name)
    for at, _, names in os.walk(source):
        to = f"{copy}/crates/{name}/src{at[len(source):]}"
        for file in (it for it in names if it.endswith(ENDING)):
            os.makedirs(to, exist_ok=True)
            shutil.copy(f"{at}/{file}", f"{to}/{file.removesuffix('.txt')}")
    with open(f"{source}/libraries.txt", encoding="utf-8") as it:
        libraries = it.read().split()
    with open(f"{copy}/crates.txt", "a", encoding="utf-8") as it:
        it.write(f"{name}: {' '.join(libraries)}\n")
    return libraries


def take_back(folder):
    """Copies the sources of a placed crate back to where they come from: `rt fmt` laid them out there."""
    source = source_of(os.path.basename(folder))
    for at, _, names in os.walk(f"{folder}/src"):
        for file in names:
            shutil.copy(f"{at}/{file}", f"{source}{at[len(folder) + 4:]}/{file}.txt")


def start_trying(words, **how):
    """Starts `rt try` with these words. `rt try` also starts a check that only looks for names that a proof can't have and takes as long
    as the compiler. This function ends that check."""
    ran = subprocess.Popen(["rt", "try", *words], **how)
    threading.Thread(target=end_name_check, args=(ran,), daemon=True).start()
    return ran


def end_name_check(ran):
    """Ends the check of names that a running `rt try` has started, as soon as there is one."""
    while ran.poll() is None:
        for pid in filter(str.isdigit, os.listdir("/proc")):
            try:
                with open(f"/proc/{pid}/stat", encoding="utf-8", errors="replace") as it:
                    parent = int(it.read().rpartition(")")[2].split()[1])
                with open(f"/proc/{pid}/cmdline", encoding="utf-8", errors="replace") as it:
                    names = "--start\0no function" in it.read()
                if parent == ran.pid and names:
                    os.kill(int(pid), signal.SIGKILL)
                    return
            except (OSError, IndexError):
                continue
        time.sleep(0.5)
