#!/usr/bin/env bash
# Million steps a second of small programs, beside a plain interpreter in C where one is given:
#   bench/steps.sh [RVREF.c]
# It measures crates/bench_steps/out/bench_steps, which `rt run` in that folder builds. The best of five runs counts, in processor seconds.
# Where valgrind is installed it also tells the host instructions of a step, by callgrind, as the difference of two lengths of run.
set -euo pipefail
cd "$(dirname "$0")/.."
exec python3 - "${1:-}" <<'PYTHON'
import os, re, resource, shutil, struct, subprocess, sys, tempfile

PROGRAM = "crates/bench_steps/out/bench_steps"
# A counting loop, a sieve, a copy, loads and stores, the same with data in the code's page, calls (a recursive Fibonacci),
# a function of another page, the loop with 1,000 steps asked for at once, and what gcc makes of bench/compiled.c.
ROUNDS = {"loop": 3000, "sieve": 400, "copy": 5000, "mem": 2000, "own": 2000, "calls": 10000, "far": 3000, "short": 3000, "compiled": 1200}
COUNTED = {"loop": 5, "sieve": 1, "copy": 5, "mem": 5, "own": 5, "calls": 5, "far": 5, "short": 5, "compiled": 1}
CODE, DATA = 0x10000, 0x20000


def image(words, start):
    """An ELF file with these words as its code, which lies in two pages, and six pages of data."""
    code = b"".join(struct.pack("<I", word) for word in words)
    head = b"\x7fELF\x01\x01\x01".ljust(16, b"\0")
    head += struct.pack("<HHIIIIIHHHHHH", 2, 243, 1, start, 52, 0, 0, 52, 32, 2, 0, 0, 0)
    head += struct.pack("<IIIIIIII", 1, 116, start, start, len(code), CODE + 8192 - start, 7, 1)
    head += struct.pack("<IIIIIIII", 1, 116, DATA, DATA, 0, 6 * 4096, 6, 1)
    return head + code


def run(command):
    """The processor seconds of a run, to the microsecond, and what was written."""
    before = resource.getrusage(resource.RUSAGE_CHILDREN)
    done = subprocess.run(command, capture_output=True, text=True)
    after = resource.getrusage(resource.RUSAGE_CHILDREN)
    seconds = after.ru_utime + after.ru_stime - before.ru_utime - before.ru_stime
    return seconds, done.stdout + done.stderr


def best(commands):
    """Of five runs of each, in turn, the least seconds, and what was written."""
    runs = [[run(command) for command in commands] for _ in range(5)]
    return [min(taken) for taken in zip(*runs)]


def counted(name, rounds):
    """The steps of a run, and the host instructions of it."""
    done = subprocess.run(
        ["valgrind", "--tool=callgrind", "--callgrind-out-file=/dev/null", PROGRAM, name, str(rounds)], capture_output=True, text=True
    )
    return int(re.search(r"(\d+) steps", done.stdout).group(1)), int(re.search(r"Collected : (\d+)", done.stderr).group(1))


def instructions():
    """Prints the host instructions of a step of each program."""
    for name, rounds in COUNTED.items():
        (few, short), (many, long) = counted(name, rounds), counted(name, 3 * rounds)
        print(f"{name}: {(long - short) / (many - few):.1f} host instructions a step")


def main():
    with tempfile.TemporaryDirectory() as folder:
        reference = None
        if sys.argv[1]:
            reference = os.path.join(folder, "rvref")
            subprocess.run(["cc", "-O2", "-w", "-o", reference, sys.argv[1]], check=True)
        for name, rounds in ROUNDS.items():
            command = [PROGRAM, name, str(rounds)]
            commands = [command]
            if reference:
                words = run(command + ["words"])[1].split()
                path = os.path.join(folder, name)
                start = CODE + 4096 - 28 if name == "far" else CODE
                with open(path, "wb") as file:
                    file.write(image([int(word, 16) for word in words], start))
                commands.append([reference, path])
            (seconds, text), *others = best(commands)
            steps = int(re.search(r"(\d+) steps", text).group(1))
            line = f"{name}: {steps} steps, {steps / seconds / 1e6:.1f} million a second"
            for other, told in others:
                same = int(re.search(r"steps (\d+)", told).group(1))
                line += f"; in C {same / other / 1e6:.1f}, ratio {steps / seconds / (same / other):.2f}"
            print(line)
    if shutil.which("valgrind"):
        instructions()


main()
PYTHON
