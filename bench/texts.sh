#!/usr/bin/env bash
# Million bytes a second of reading scripts of three kinds, and of printing 1,048,576 event lines:
#   bench/texts.sh
# It measures crates/bench_texts/out/bench_texts, which `rt run` in that folder builds. The best of five runs counts, in processor seconds.
set -euo pipefail
cd "$(dirname "$0")/.."
exec python3 - <<'PYTHON'
import os, subprocess

PROGRAM = "crates/bench_texts/out/bench_texts"
SCRIPT_BYTES, ROUNDS, EVENTS = 65_000, 2_000, 1_048_576


def run(*words):
    """The processor seconds of a run, and how many bytes it wrote."""
    before = os.times()
    done = subprocess.run([PROGRAM, *map(str, words)], capture_output=True)
    after = os.times()
    return after.children_user + after.children_system - before.children_user - before.children_system, len(done.stdout)


def best(*words):
    return min(run(*words) for _ in range(5))


for kind in ["comments", "words", "long"]:
    seconds, _ = best(kind, ROUNDS)
    print(f"{kind}: {ROUNDS * SCRIPT_BYTES / seconds / 1e6:.0f} million bytes a second")
seconds, written = best("events", EVENTS)
print(f"events: {written} bytes, {written / seconds / 1e6:.0f} million bytes a second")
PYTHON
