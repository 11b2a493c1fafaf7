"""Runs a program several times with words on a text as standard input, and prints its status, the least time, the least processor
time, the least peak memory and what it told, or how much.

`/usr/bin/time` (Debian's package `time`) starts the program and tells its processor time and its peak: a child that Python starts has
Python's own memory before it becomes the program, and that would be told.
"""
import os
import subprocess
import sys
import tempfile
import time

RUNS = 5
TIMER = "/usr/bin/time"
if not os.access(TIMER, os.X_OK):
    sys.exit(f"{TIMER} is missing: install the package `time`")

text, command = sys.argv[1], sys.argv[2:]
spent, worked, peaks = [], [], []
with tempfile.NamedTemporaryFile("r") as note:
    for _ in range(RUNS):
        begun = time.perf_counter()
        with open(text, "rb") as source:
            told = subprocess.run([TIMER, "-q", "-f", "%U %S %M", "-o", note.name, *command], stdin=source, stdout=subprocess.PIPE)
        spent.append(time.perf_counter() - begun)
        note.seek(0)
        user, system, peak = note.read().split()
        worked.append(float(user) + float(system))
        peaks.append(int(peak))
answer = told.stdout.decode().strip()
shown = repr(answer) if len(answer) <= 80 else f"{len(answer)} bytes"
print(f"{os.path.getsize(text)} bytes: status {told.returncode}, {min(spent):.3f} s, {min(worked):.2f} s of a processor, {min(peaks) / 1024:.1f} MB, {shown}")
