#!/usr/bin/env python3
"""Runs commands in turn and tells what each cost: switches.py ROUNDS NAME COMMAND [NAME COMMAND]...

One line a run: NAME, seconds of processor time as the program and in the kernel, and how often its threads slept and how often
they were set aside while they could run (getrusage).
"""

import os
import shlex
import subprocess
import sys


def main():
    for _ in range(int(sys.argv[1])):
        for name, command in zip(sys.argv[2::2], sys.argv[3::2]):
            child = subprocess.Popen(shlex.split(command), stdin=subprocess.DEVNULL, stdout=subprocess.DEVNULL)
            _, status, usage = os.wait4(child.pid, 0)
            child.returncode = os.waitstatus_to_exitcode(status)
            if child.returncode != 0:
                sys.exit(f"switches.py: status {child.returncode} of {command}")
            print(f"{name} program={usage.ru_utime:.2f} kernel={usage.ru_stime:.2f}", end=" ")
            print(f"slept={usage.ru_nvcsw} aside={usage.ru_nivcsw}", flush=True)


main()
