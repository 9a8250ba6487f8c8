#!/usr/bin/env python3
"""Times Fill, Close and Convert of one basis text by the program pace: the best of five runs, less a run of one turn each.

    pace.py PROGRAM CODE D [TURNS]

PROGRAM is crates/pace/out/pace, as `rt run` leaves it; CODE and D are those of basis.py.
"""
import os
import subprocess
import sys
import time

HERE = os.path.dirname(os.path.realpath(__file__))


def seconds(program, text, turns):
    best = float("inf")
    for _ in range(5):
        start = time.perf_counter()
        subprocess.run([program, *map(str, turns)], input=text, stdout=subprocess.DEVNULL, check=True)
        best = min(best, time.perf_counter() - start)
    return best


def main():
    program, code, d = sys.argv[1:4]
    turns = int(sys.argv[4]) if len(sys.argv) > 4 else 100
    text = subprocess.run([sys.executable, os.path.join(HERE, "basis.py"), code, d], stdout=subprocess.PIPE, check=True).stdout
    once = seconds(program, text, (1, 1, 1))
    fill = (seconds(program, text, (turns + 1, 1, 1)) - once) / turns
    close = (seconds(program, text, (1, turns + 1, 1)) - once) / turns - fill
    convert = (seconds(program, text, (1, 1, turns + 1)) - once) / turns
    print(f"{code} {d}: fill {fill * 1e6:.0f}, close {close * 1e6:.0f}, convert {convert * 1e6:.0f} microseconds")


main()
