#!/usr/bin/env bash
# Spinning programs, eight a node, on threads beside the same run on one thread and beside as many runs of one node each at once, which is what the machine can give,
# by the clock; and what nodes that have nothing to do burn, beside threads in C that only pause as they do (bench/pauses.c):
#   bench/threads.sh [PROGRAM]
# It measures PROGRAM, or crates/mosixsim/out/mosixsim, which ./prove builds. The best of three runs counts.
set -euo pipefail
program=$(readlink -f "${1:-$(dirname "$0")/../crates/mosixsim/out/mosixsim}")
exec python3 - "$program" "$(readlink -f "$(dirname "$0")/pauses.c")" <<'PYTHON'
import os, resource, subprocess, sys, tempfile, time

PROGRAM, PAUSES = sys.argv[1:]
ROUNDS, EACH = 30_000_000, 8

# so many rounds of two instructions
SPIN = "li s0, {0}\nl: addi s0, s0, -1\nbne s0, x0, l\nli a0, 0\nsys 1\n"


def timed(command, text):
    """The seconds by the clock and of processors of a command, and what it wrote."""
    before, start = resource.getrusage(resource.RUSAGE_CHILDREN), time.monotonic()
    done = subprocess.run(command, input=text.encode(), capture_output=True)
    seconds, after = time.monotonic() - start, resource.getrusage(resource.RUSAGE_CHILDREN)
    return seconds, after.ru_utime + after.ru_stime - before.ru_utime - before.ru_stime, done.stdout


def run(words, script):
    """The same of a run."""
    return timed([PROGRAM, *words.split()], script)


def best(words, script):
    return min(run(words, script)[:2] for _ in range(3))


def at_once(count):
    """The seconds by the clock of so many runs of one node at once, the best of three."""
    def one():
        start = time.monotonic()
        runs = [subprocess.Popen([PROGRAM, "--nodes", "1", "--serial", "run"], stdin=subprocess.PIPE, stdout=subprocess.DEVNULL) for _ in range(count)]
        for each in runs:
            each.stdin.write(("run spin\n" * EACH).encode())
            each.stdin.close()
        for each in runs:
            each.wait()
        return time.monotonic() - start
    return min(one() for _ in range(3))


def script_for(nodes):
    """So many programs for each node, moved there."""
    pids = range(1, EACH * nodes + 1)
    return "".join("run spin\n" for _ in pids) + "".join(f"move {pid} {pid % nodes}\n" for pid in pids)


def main():
    print(f"{os.cpu_count()} processors")
    with open("spin", "wb") as file:
        file.write(run("asm", SPIN.format(ROUNDS))[2])
    for nodes in [1, 2, 4, 8]:
        script = script_for(nodes)
        serial, _ = best(f"--nodes {nodes} --serial run", script)
        threads, _ = best(f"--nodes {nodes} run", script)
        apart = at_once(nodes)
        print(f"{EACH * nodes} programs on {nodes} nodes: {serial:.2f} seconds on one thread, {threads:.2f} on threads, ratio {serial / threads:.2f}; as {nodes} runs at once {apart:.2f}")
    subprocess.run(["cc", "-O2", "-pthread", "-o", "pauses", PAUSES], check=True)
    seconds, burnt, _ = min(timed(["./pauses", "7", "20000"], "") for _ in range(3))
    print(f"seven threads that only pause: {burnt / seconds:.3f} of a processor")
    script = "".join(f"run spin\nwait {pid}\n" for pid in range(1, 41))
    for quantum in [16384, 65536]:
        _, alone = best(f"--nodes 1 --quantum {quantum} run", script)
        seconds, burnt = best(f"--nodes 8 --quantum {quantum} run", script)
        print(f"forty programs one after the other, on one of eight nodes, quantum {quantum}: {seconds:.2f} seconds, {burnt:.2f} of processors, alone {alone:.2f}; the seven others {(burnt - alone) / seconds:.3f} of a processor")


with tempfile.TemporaryDirectory() as folder:
    os.chdir(folder)
    main()
PYTHON
