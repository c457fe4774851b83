#!/usr/bin/env python3
"""Runs a command and prints its seconds by the clock and of processor, and its peak of memory.

    measure.py RUNS STATUS COMMAND ARGUMENT..

The seconds are the least of so many runs. A run that ends with another status
than STATUS stops the benchmark. The command's own output is thrown away.
"""

import os
import sys
import time


def run(command):
    start = time.perf_counter()
    pid = os.fork()
    if pid == 0:
        nothing = os.open(os.devnull, os.O_WRONLY)
        os.dup2(nothing, 1)
        os.dup2(nothing, 2)
        os.execv(command[0], command)
    _, status, usage = os.wait4(pid, 0)
    clock = time.perf_counter() - start
    processor = usage.ru_utime + usage.ru_stime
    return clock, processor, usage.ru_maxrss // 1024, os.waitstatus_to_exitcode(status)


def main():
    runs, wanted, command = int(sys.argv[1]), int(sys.argv[2]), sys.argv[3:]
    results = [run(command) for _ in range(runs)]
    statuses = {result[3] for result in results}
    if statuses != {wanted}:
        sys.exit("status %s of %s" % (statuses, " ".join(command)))
    clock, processor = min(r[0] for r in results), min(r[1] for r in results)
    print("%.2f s (%.2f s of processor), %d MB" % (clock, processor, max(r[2] for r in results)))


main()
