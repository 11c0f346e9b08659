"""times.py ROUNDS PROGRAM: runs `PROGRAM alone` and `PROGRAM spine` in turn, and prints the least times of each."""
import os
import sys
import time

SENDS = 100_000
rounds, program = int(sys.argv[1]), sys.argv[2]


def run(word):
    """The wall and the processor time, in seconds."""
    start = time.perf_counter()
    process = os.posix_spawn(program, [program, word], os.environ)
    _, status, used = os.wait4(process, 0)
    wall = time.perf_counter() - start
    if status != 0:
        sys.exit(f"{program} {word} ended with {status}")
    return wall, used.ru_utime + used.ru_stime


times = {"alone": [], "spine": []}
for _ in range(rounds):
    for word in times:
        times[word].append(run(word))
print(f"{SENDS} sends, the least of {rounds}:")
for at, what in enumerate(["wall", "processor"]):
    alone, spine = (min(one[at] for one in times[word]) for word in ("alone", "spine"))
    more = (spine - alone) / SENDS * 1e9
    shown = f"alone {alone * 1e3:.1f} ms, through a spine {spine * 1e3:.1f} ms"
    print(f"{what} time: {shown}; {more:.0f} ns more a send")
