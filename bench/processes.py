"""What the measuring scripts share: calls in a process of their own, and runs of a program that are timed."""
import os
import subprocess
import sys
import time


def in_a_process(call, *words):
    """Runs a call in a process of its own, so that what it allocates is no part of what is measured."""
    child = os.fork()
    if child == 0:
        call(*words)
        os._exit(0)
    _, status = os.waitpid(child, 0)
    if status:
        sys.exit(f"{call.__name__} ended with {status}")


def timed(words, output, runs):
    """The least seconds and processor seconds of several runs, and the greatest resident size in bytes."""
    least, worked, most = float("inf"), float("inf"), 0
    for _ in range(runs):
        with open(output, "wb") as out:
            start = time.monotonic()
            child = subprocess.Popen(words, stdout=out)
            _, status, usage = os.wait4(child.pid, 0)
            seconds = time.monotonic() - start
        if status:
            sys.exit(f"{words} ended with {status}")
        least = min(least, seconds)
        worked = min(worked, usage.ru_utime + usage.ru_stime)
        most = max(most, usage.ru_maxrss * 1024)
    return least, worked, most
