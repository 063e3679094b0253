"""What the benchmarks share: where the programs are, how they are built, and how a run is timed."""
import argparse
import collections
import glob
import os
import re
import shutil
import subprocess
import sys
import time

ROOT = os.path.dirname(os.path.dirname(os.path.abspath(__file__)))
LAUNCHER = os.path.join(ROOT, "bkreplay")
RT = os.path.join(ROOT, "launcher", "rt_once")
# The processor that the launcher builds for.
CPU = subprocess.run([os.path.join(ROOT, "launcher", "cpu")], check=True, capture_output=True, text=True).stdout.strip()
PROGRAM = os.path.join(ROOT, "out", CPU, "bkreplay")


def example_feeds():
    """The feeds in examples/ that have accounts: some of them are stopped or cut short."""
    groups = [glob.glob(os.path.join(ROOT, "examples", group, "*.feed")) for group in ("order", "payments")]
    return sorted(path for group in groups for path in group)


def parser(text):
    """A reader of the command line, whose help is the text at the top of a script."""
    return argparse.ArgumentParser(description=text, formatter_class=argparse.RawDescriptionHelpFormatter)


def build_program():
    """The launcher proves and builds `bkreplay` where that is not done yet."""
    subprocess.run([LAUNCHER, "--version"], check=True, stdout=subprocess.DEVNULL)


def build_in_copy(room, folder, libraries):
    """Proves and builds the program in a folder of bench/ for the processor that the launcher builds for, in a scratch
    copy of the repository, and returns its path."""
    scratch = os.path.join(room, "repository")
    shutil.copytree(ROOT, scratch, symlinks=True, ignore=shutil.ignore_patterns(".git", "build", "incremental"))
    crate = os.path.join(scratch, "crates", "bk_bench")
    shutil.copytree(os.path.join(ROOT, "bench", folder), crate)
    # The gate reads no source outside a crate, so those of this program are named as texts where they are kept.
    for path in glob.glob(os.path.join(crate, "**", "*.txt"), recursive=True):
        os.rename(path, path[: -len(".txt")])
    path = os.path.join(scratch, "crates.txt")
    with open(path, "a", encoding="utf-8") as out:
        out.write(f"bk_bench: {libraries}\n")
    program = os.path.join(crate, "out", "bk_bench")
    # Without a feed the program ends with an error, once it is built.
    words = [RT, "run", *([] if CPU == "default" else ["--cpu", CPU]), "--", "1", "1"]
    ran = subprocess.run(words, cwd=crate, stdin=subprocess.DEVNULL, capture_output=True, text=True, check=False)
    if not os.path.exists(program):
        sys.exit(f"the program of bench/{folder} was not built\n{ran.stdout[-3000:]}{ran.stderr[-3000:]}")
    kept = os.path.join(room, "program")
    shutil.move(program, kept)
    shutil.rmtree(scratch)
    return kept


def commands_of(program):
    """The commands that the program has, by its help."""
    said = subprocess.run([program, "--help"], capture_output=True, text=True, check=True).stdout
    return set(re.findall(r"^\s+([a-z][a-z-]+)\s", said, re.MULTILINE)) - {"help"}


# What a run took: seconds, seconds of all its processors together, and its peak of resident memory in bytes.
Taken = collections.namedtuple("Taken", "seconds processors peak")


def take(words, source=os.devnull, target=os.devnull):
    """What one run took."""
    with open(source, "rb") as stdin, open(target, "wb") as stdout:
        start = time.perf_counter()
        child = subprocess.Popen(words, stdin=stdin, stdout=stdout)
        _, status, usage = os.wait4(child.pid, 0)
        seconds = time.perf_counter() - start
    child.returncode = os.waitstatus_to_exitcode(status)
    if child.returncode != 0:
        sys.exit(f"{words[0]} ended with status {child.returncode}")
    return Taken(seconds, usage.ru_utime + usage.ru_stime, usage.ru_maxrss * 1024)


def run_once(words, source=os.devnull, target=os.devnull):
    """The seconds of one run and its peak of resident memory in bytes."""
    taken = take(words, source, target)
    return taken.seconds, taken.peak
