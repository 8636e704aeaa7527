"""Runs a program over an input, and says how long it took and how much memory."""
import os
import resource
import sys
import time

TOP = os.path.dirname(os.path.dirname(os.path.abspath(__file__)))

# whether only the least size of each workload is done, once, to see that the bench runs
SHORT = "--short" in sys.argv[1:]
if SHORT:
    sys.argv.remove("--short")

RUNS = 1 if SHORT else 5


def sizes_of(sizes):
    return sizes[:1] if SHORT else sizes


def the_program():
    """The program that is named, or the one that was built."""
    path = sys.argv[1] if len(sys.argv) > 1 else os.path.join(TOP, "crates", "gazette", "out", "gazette")
    if not os.access(path, os.X_OK):
        sys.exit("%s is not there: ./gazette or .ci/run builds it" % path)
    return path


def start(words, path, out_path):
    return os.posix_spawn(
        words[0],
        words,
        os.environ,
        file_actions=[
            (os.POSIX_SPAWN_OPEN, 0, path, os.O_RDONLY, 0),
            (os.POSIX_SPAWN_OPEN, 1, out_path, os.O_WRONLY | os.O_CREAT | os.O_TRUNC, 0o600),
        ],
    )


def finish(pid):
    """Waits for the program, and answers what the system has counted of it."""
    _, status, usage = os.wait4(pid, 0)
    code = os.waitstatus_to_exitcode(status)
    if code != 0:
        sys.exit("the program ended with status %d" % code)
    return usage


def run_seconds(words, path, out_path):
    """The seconds from start to end, and those for which a CPU worked."""
    begin = time.monotonic()
    usage = finish(start(words, path, out_path))
    return time.monotonic() - begin, usage.ru_utime + usage.ru_stime


def shortest(words, path, out_path):
    """The least of each over several runs."""
    runs = [run_seconds(words, path, out_path) for _ in range(RUNS)]
    return min(took for took, _ in runs), min(worked for _, worked in runs)


def high_water(pid):
    """The greatest memory of a process so far, in KiB; 0 where it isn't told."""
    with open("/proc/%d/status" % pid) as status:
        for line in status:
            if line.startswith("VmHWM:"):
                return int(line.split()[1])
    return 0


def run_memory(words, path, out_path):
    """The greatest memory of a run, in KiB. The system's count of a child begins with this script's own
    memory, so where it isn't above that, the program is asked again and again while it runs."""
    pid = start(words, path, out_path)
    seen = 0
    while os.waitid(os.P_PID, pid, os.WEXITED | os.WNOHANG | os.WNOWAIT) is None:
        seen = max(seen, high_water(pid))
        time.sleep(0.0005)
    counted = finish(pid).ru_maxrss
    own = resource.getrusage(resource.RUSAGE_SELF).ru_maxrss
    return counted if counted > own + 1024 else seen
