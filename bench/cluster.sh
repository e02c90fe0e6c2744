#!/usr/bin/env bash
# Whole runs, serial: events a second from 1,000 to 1,000,000 events; four spinning programs on four nodes beside one after the other on one node;
# and what a move of 1,024 pages takes:
#   bench/cluster.sh [PROGRAM]
# It measures PROGRAM, or crates/mosixsim/out/mosixsim, which ./prove builds. The best of some runs counts, in processor seconds.
set -euo pipefail
program=$(readlink -f "${1:-$(dirname "$0")/../crates/mosixsim/out/mosixsim}")
exec python3 - "$program" <<'PYTHON'
import os, re, subprocess, sys, tempfile

PROGRAM = sys.argv[1]
ROUNDS, MOVES = 30_000_000, 499

# so many calls that home serves
CALLS = "li s0, {0}\nl: sys 3\naddi s0, s0, -1\nbne s0, x0, l\nli a0, 0\nsys 1\n"
# so many rounds of two instructions
SPIN = "li s0, {0}\nl: addi s0, s0, -1\nbne s0, x0, l\nli a0, 0\nsys 1\n"


def run(words, script=""):
    """The processor seconds of a run, and what it wrote."""
    before = os.times()
    done = subprocess.run([PROGRAM, *words.split()], input=script.encode(), capture_output=True)
    after = os.times()
    return after.children_user + after.children_system - before.children_user - before.children_system, done.stdout


def best(words, script, times):
    return min(run(words, script)[0] for _ in range(times))


def many(words, script, times):
    """The processor seconds of one of so many runs, the best of five."""
    return min(sum(run(words, script)[0] for _ in range(times)) for _ in range(5)) / times


def make(name, text):
    """Assembles a program into a file of this folder."""
    with open(name, "wb") as file:
        file.write(run("asm", text)[1])


def events_of(calls):
    """How many events a run of so many calls has."""
    make("calls", CALLS.format(calls))
    return int(re.search(rb"events (\d+)", run("--nodes 1 --journal 1048576 --serial --events run", "run calls\n")[1]).group(1))


def rates():
    """Events a second, without what a run of one call takes."""
    words, script = "--nodes 1 --journal 1048576 --serial run", "run calls\n"
    for events, times in [(1_000, 200), (10_000, 50), (100_000, 5), (1_000_000, 1)]:
        few = events_of(1)
        start = many(words, script, times)
        count = events_of(events // 4)
        seconds = many(words, script, times) - start
        print(f"events: {count} events, {(count - few) / max(seconds, 1e-9) / 1e6:.2f} million a second")


def spins():
    make("spin", SPIN.format(ROUNDS))
    apart = "".join(f"run spin\nwait {pid}\n" for pid in range(1, 5))
    spread = "run spin\n" * 4 + "move 2 1\nmove 3 2\nmove 4 3\n"
    one, four = best("--nodes 1 --serial run", apart, 5), best("--nodes 4 --serial run", spread, 5)
    landed = run("--nodes 4 --serial run", spread)[1].count(b"\nmove ")
    print(f"spins: one after the other {one:.2f} s, on four nodes {four:.2f} s with {landed} moves, ratio {four / one:.3f}")


def moves():
    make("big", CALLS.format(10 * (MOVES + 2)) + f".bss {1007 * 4096}\n")
    stay = "run big\n"
    back_and_forth = stay + "".join(f"after 1 {10 * k}\nmove 1 {k % 2}\n" for k in range(1, MOVES + 1))
    words = "--nodes 2 --serial run"
    landed = run(words, back_and_forth)[1].count(b"\nmove ")
    extra = best(words, back_and_forth, 5) - best(words, stay, 5)
    print(f"moves: {landed} moves of 1,024 pages, {extra / max(landed, 1) * 1e6:.0f} microseconds a move")


with tempfile.TemporaryDirectory() as folder:
    os.chdir(folder)
    rates()
    spins()
    moves()
PYTHON
