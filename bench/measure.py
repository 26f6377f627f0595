"""What the scripts of this folder share: the built program, programs in C and C++, and times of whole processes."""
import os
import shutil
import subprocess
import sys
import time
from collections import namedtuple
from pathlib import Path

BENCH = Path(__file__).resolve().parent
TOP = BENCH.parent
# How ./arena lets large vectors use huge pages, and those of several workers; a row of small pages is measured without it.
HUGE = {"GLIBC_TUNABLES": "glibc.malloc.hugetlb=1"}
HUGE_FOR_ALL = {"GLIBC_TUNABLES": "glibc.malloc.hugetlb=1:glibc.malloc.top_pad=16777216"}
NOT_BUILT = 125

Timed = namedtuple("Timed", "seconds processor status peak_mib")


def program():
    """The path of the program, built first where it isn't or where a source is newer. Ends the script where it can't be."""
    done = subprocess.run([TOP / "arena"], stdout=subprocess.DEVNULL, stderr=subprocess.PIPE, text=True)
    if done.returncode == NOT_BUILT:
        sys.exit(done.stderr + "nothing was measured: the program wasn't built")
    return TOP / "crates/arena_cli/out/arena_cli"


def compiled(source, folder):
    """The path of a program in C from this folder, built by `cc -O2`."""
    out = Path(folder, Path(source).stem)
    subprocess.run(["cc", "-O2", "-o", out, BENCH / source], check=True)
    return out


def repository(folder, crates, program):
    """The folder of a crate to be written, in a repository of these crates. `program` is the crate's line of crates.txt."""
    for crate in crates:
        shutil.copytree(TOP / "crates" / crate, folder / "crates" / crate, ignore=shutil.ignore_patterns("out", "must-fail"))
    lines = (TOP / "crates.txt").read_text().splitlines(True)
    (folder / "crates.txt").write_text("".join(line for line in lines if line.split(":")[0] in crates) + program)
    shutil.copy(TOP / "HANDLES", folder)
    crate = folder / "crates" / program.split(":")[0]
    (crate / "src").mkdir(parents=True)
    return crate


def proved(crate, source, out):
    """The path of a program of this source, proved and built in its crate. Ends the script where it can't be."""
    (crate / "src/main.rt").write_text(source)
    done = subprocess.run(["rt", "run"], cwd=crate, capture_output=True, text=True)
    built = crate / "out" / crate.name
    if done.returncode != 0 or not built.exists():
        sys.exit(done.stdout[-3000:] + done.stderr[-3000:] + "nothing was measured: the program wasn't built")
    shutil.copy(built, out)
    return out


def timed(command, more, out=os.devnull):
    """Runs the command to its end, with `more` in its environment and its output in the file `out`."""
    environment = {key: value for key, value in os.environ.items() if key != "GLIBC_TUNABLES"} | more
    with open(out, "wb") as file:
        start = time.perf_counter()
        process = subprocess.Popen([str(word) for word in command], stdout=file, stderr=subprocess.DEVNULL, env=environment)
        _, status, usage = os.wait4(process.pid, 0)
        seconds = time.perf_counter() - start
    code = os.waitstatus_to_exitcode(status)
    process.returncode = code
    return Timed(seconds, usage.ru_utime + usage.ru_stime, code, usage.ru_maxrss / 1024)


def best(old, new):
    """The better of two timings in each figure."""
    if old is None:
        return new
    return Timed(min(old.seconds, new.seconds), min(old.processor, new.processor), new.status, min(old.peak_mib, new.peak_mib))
