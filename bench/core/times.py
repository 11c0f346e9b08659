"""times.py ROUNDS PROGRAM FOLDER: runs the program's works in turn at three counts, and tells the middle of the rounds.

The program looks at the clock itself, so that its start and its opening don't count. Bytes a record are what the process held at
most after a million records less the same after ten thousand.
"""
import os
import shutil
import statistics
import subprocess
import sys

rounds, program, folder = int(sys.argv[1]), sys.argv[2], sys.argv[3]
COUNTS = [10_000, 100_000, 1_000_000]
WORKS = ("encode", "sends", "pulls")
os.chdir(folder)


def said(*command):
    shutil.rmtree("core_bench_store", ignore_errors=True)
    ran = subprocess.run(command, capture_output=True, text=True)
    if ran.returncode != 0:
        sys.exit(f"{command}: status {ran.returncode}")
    return ran


def took(work, count):
    """The nanoseconds that each of the count took, and each of what came behind them."""
    return [int(word) for word in said(program, work, str(count)).stdout.split()]


def kilobytes(count):
    return int(said("/usr/bin/time", "-f", "%M", program, "sends", str(count)).stderr.split()[-1])


found = {(work, count): [] for work in WORKS for count in COUNTS}
for _ in range(rounds):
    for count in COUNTS:
        for work in WORKS:
            found[work, count].append(took(work, count))


def middle(work, count, place):
    times = sorted(pair[place] for pair in found[work, count])
    return f"{statistics.median(times):.0f} ({times[0]} to {times[-1]})"


for count in COUNTS:
    print(f"{count} records, ns: encoding {middle('encode', count, 0)}, each of these sends {middle('sends', count, 0)}, "
          f"one behind them {middle('sends', count, 1)}, a pull {middle('pulls', count, 1)}")
held = (kilobytes(COUNTS[2]) - kilobytes(COUNTS[0])) * 1024 / (COUNTS[2] - COUNTS[0])
print(f"{held:.0f} bytes a record")
