"""times.py ROUNDS PROVED PLAIN: runs both programs in turn on each work, and tells the middle of the rounds.

Times are those of the processor, user and system, so that a busy machine shows less. What asking costs is the middle of the runs
with questions less the middle of those without. Bytes are what the filled process held at most, less what it holds without work.
"""
import os
import statistics
import subprocess
import sys

rounds, proved, plain = int(sys.argv[1]), sys.argv[2], sys.argv[3]
WORKS = [
    ("queue", 1_000_000, 1_000_000),
    ("queues", 1_000_000, 1_000_000),
    ("keys", 1_000_000, 1_000_000),
    ("halves", 112_500, 80_000),
    ("levels", 1_000_000, 1_000_000),
]


def seconds(program, work, asks):
    pid = os.posix_spawn(program, [program, work, str(asks)], os.environ)
    _, status, usage = os.wait4(pid, 0)
    if status != 0:
        sys.exit(f"{program} {work} {asks}: status {status}")
    return usage.ru_utime + usage.ru_stime


def kilobytes(program, work):
    said = subprocess.run(["/usr/bin/time", "-f", "%M", program, work, "0"], stderr=subprocess.PIPE, text=True).stderr
    return int(said.split()[-1])


def line(what, unit, ours, theirs):
    print(f"  {what}: {ours:.0f} {unit} beside {theirs:.0f}, {ours / theirs:.2f} times")


def middle(work, asks):
    """The middle seconds of both programs."""
    took = [[seconds(program, work, asks) for program in (proved, plain)] for _ in range(rounds)]
    return [statistics.median(times) for times in zip(*took)]


for work, count, asks in WORKS:
    empty, asked = middle(work, 0), middle(work, asks)
    held = [(kilobytes(program, work) - kilobytes(program, "none")) * 1024 / count for program in (proved, plain)]
    print(work)
    line("filling", "ns each", *(one * 1e9 / count for one in empty))
    line("asking", "ns each", *((one - other) * 1e9 / asks for one, other in zip(asked, empty)))
    line("held", "bytes each", *held)
