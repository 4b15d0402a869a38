"""What a command costs: seconds and memory."""
import os
import subprocess
import time


def usage_of(words):
    """What the system says that a command has used, whose output is thrown away."""
    child = subprocess.Popen(words, stdout=subprocess.DEVNULL)
    _, status, usage = os.wait4(child.pid, 0)
    child.returncode = os.waitstatus_to_exitcode(status)
    if child.returncode:
        raise subprocess.CalledProcessError(child.returncode, words)
    return usage


def processor_seconds_of(words):
    """The seconds of processor that a command takes, the best of three runs. Other work on the machine tells little in them."""
    return min(usage.ru_utime + usage.ru_stime for usage in (usage_of(words) for _ in range(3)))


def peak_of(words):
    """The bytes that a command has in memory at most."""
    return usage_of(words).ru_maxrss * 1024


def seconds_of(words, output=os.devnull):
    """The seconds that pass while a command writes into that file, the best of three runs."""
    best = None
    for _ in range(3):
        with open(output, "wb") as file:
            start = time.perf_counter()
            subprocess.run(words, check=True, stdout=file)
            taken = time.perf_counter() - start
        best = taken if best is None else min(best, taken)
    return best
