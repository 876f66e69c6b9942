#!/usr/bin/env python3
"""Runs tests with each request for memory refused in turn: each.py REFUSE.so TESTS [WORD..]"""

import os
import re
import subprocess
import sys
import tempfile
import time
from concurrent.futures import ThreadPoolExecutor

MOST = 4_000  # runs of a test; of more requests every so manieth is refused

NAMED = re.compile(r"^error: (AllocError|NoMemory)$", re.M)  # a test that ends so said want of memory by its name


def run(shim, tests, name, number):
    """A test's status and its text, with that request refused; and how many requests it made."""
    with tempfile.TemporaryDirectory() as folder:
        told = os.path.join(folder, "count")
        env = {"LD_PRELOAD": shim, "FAIL_ALLOC": str(number), "FAIL_COUNT": told}
        done = subprocess.run([tests, name], env=env, cwd=folder, capture_output=True, timeout=120, check=False)
        count = int(open(told, encoding="ascii").read()) if os.path.exists(told) else 0
    return done.returncode, (done.stdout + done.stderr).decode(errors="replace").strip(), count


def main():
    shim, tests, words = sys.argv[1], sys.argv[2], sys.argv[3:]
    listed = subprocess.run([tests, "--list"], capture_output=True, text=True, check=True).stdout.splitlines()
    names = [line.removesuffix(": test") for line in listed if line.endswith(": test")]
    failed = 0
    for name in names:
        if words and not any(word in name for word in words):
            continue
        begun = time.monotonic()
        status, text, count = run(shim, tests, name, 0)
        if status:
            raise SystemExit(f"each.py: {name} fails by itself: {text}")
        step = -(-count // MOST)
        numbers = range(1, count + 1, step)
        with ThreadPoolExecutor(2) as pool:
            ran = list(pool.map(lambda number: run(shim, tests, name, number), numbers))
        wrong = [(number, it) for number, it in zip(numbers, ran) if it[0] and not NAMED.search(it[1])]
        passed = sum(not it[0] for it in ran)
        again = sum(not it[0] and it[2] > count for it in ran)
        print(
            f"{name}: {count} requests, each {f'{step}th ' if step > 1 else ''}refused: of {len(ran)} runs {passed} passed"
            f" ({again} of them played again after want of memory), {len(ran) - passed - len(wrong)} ended by its name,"
            f" {len(wrong)} otherwise ({time.monotonic() - begun:.0f} s)",
            flush=True,
        )
        for number, (status, text, _) in wrong[:5]:
            print(f"    request {number}: status {status}: {text[-300:]}")
        failed += len(wrong)
    sys.exit(failed > 0)


main()
