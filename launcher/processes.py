"""Processes of the toolchain: started, and ended with all that they started; and how many may be at work."""
import os
import signal
import subprocess


def below(pid):
    """The processes that a process started, and those that they did."""
    parents = {}
    for it in filter(str.isdigit, os.listdir("/proc")):
        try:
            with open(f"/proc/{it}/stat", encoding="utf-8", errors="replace") as file:
                parents.setdefault(int(file.read().rpartition(")")[2].split()[1]), []).append(int(it))
        except OSError:
            pass
    found, left = [], [pid]
    while left:
        left += parents.get(left[0], [])
        found.append(left.pop(0))
    return found


def end(run):
    """Ends a run and every process that it started."""
    for pid in below(run.pid):
        try:
            os.kill(pid, signal.SIGKILL)
        except OSError:
            pass
    run.wait()


def started(words, folder, log):
    """Starts a command of the toolchain, whose output goes to a log."""
    return subprocess.Popen(words, cwd=folder, stdin=subprocess.DEVNULL, stdout=log, stderr=subprocess.STDOUT,
                            start_new_session=True)


def places():
    """How many processes may prove at once: one for each processor, but not more than memory holds, of which a proof
    may need two gigabytes and more."""
    processors = len(os.sched_getaffinity(0))
    try:
        with open("/proc/meminfo", encoding="utf-8") as file:
            sizes = {line.split(":")[0]: int(line.split()[1]) for line in file}
        memory = sizes["MemAvailable"] // 2_000_000
    except (OSError, KeyError, ValueError, IndexError):
        memory = processors
    return max(1, min(processors, memory))
