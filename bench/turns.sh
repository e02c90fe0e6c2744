#!/usr/bin/env bash
# Turns of nodes: how many a second with pokes and with calls, and what a move of 17 and of 1,024 pages takes between two nodes
# (the order, the question, the answer, the move, the landing and what home is told of it, with all turns of both), beside a copy of 1,024 pages by memcpy.
# The best of seven runs of each, taken in turn, counts, in processor seconds. It fails where a move of 1,024 pages takes as long as three such copies.
#   bench/turns.sh [PROGRAM]
# It measures PROGRAM, or crates/bench_turns/out/bench_turns, which `rt run` in that folder builds.
set -euo pipefail
program=$(readlink -f "${1:-$(dirname "$0")/../crates/bench_turns/out/bench_turns}")
exec python3 - "$program" <<'PYTHON'
import os, subprocess, sys

# word, rounds, pages
TASKS = [("pokes", 500_000, 17), ("calls", 200_000, 17), ("moves", 20_000, 17), ("moves", 20_000, 1024), ("copies", 1_000, 1024)]


def run(word, rounds, pages):
    """The processor seconds of a run, and the count that it wrote."""
    before = os.times()
    done = subprocess.run([sys.argv[1], word, str(rounds), str(pages)], check=True, capture_output=True, text=True)
    after = os.times()
    seconds = after.children_user + after.children_system - before.children_user - before.children_system
    return seconds, int(done.stdout.split()[-1])


def best():
    """Of seven runs of each task with all rounds, and of as many with one round, the least seconds of each, and the counts."""
    runs = [[run(word, some, pages) for word, rounds, pages in TASKS for some in (1, rounds)] for _ in range(7)]
    return [min(tries) for tries in zip(*runs)]


told = best()
times = []
for place, (word, rounds, pages) in enumerate(TASKS):
    (one, few), (all_rounds, many) = told[2 * place], told[2 * place + 1]
    seconds = max(all_rounds - one, 1e-9)
    times.append(seconds / (rounds - 1))
    if word == "copies":
        print(f"copies of {pages} pages: {times[-1] * 1e6:.1f} microseconds each")
    else:
        each = f"; {times[-1] * 1e6:.2f} microseconds a move of {pages} pages" if word == "moves" else ""
        print(f"{word}: {(many - few) / seconds / 1e6:.2f} million turns a second{each}")
ratio = times[3] / times[4]
print(f"a move of 1,024 pages takes {ratio:.3f} of a copy of as many by memcpy")
sys.exit(0 if ratio < 3 else 1)
PYTHON
