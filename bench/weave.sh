#!/usr/bin/env bash
# Times the weave of eight journals of 131,072 events, a proved program, beside a weave of half as many: the time of one weave, in milliseconds,
# and what one event costs. The best of five runs counts, in processor seconds.
#
#   bench/weave.sh
set -euo pipefail

top=$(cd "$(dirname "$0")/.." && pwd)
(cd "$top/crates/bench_weave" && rt run) >/tmp/bench_weave.$$ 2>&1 || { cat /tmp/bench_weave.$$; exit 1; }
rm -f /tmp/bench_weave.$$
exec python3 - "$top/crates/bench_weave/out/bench_weave" <<'PYTHON'
import os, subprocess, sys

ROUNDS = 10


def seconds(rounds, events):
    """The least seconds of five runs."""
    best = None
    for _ in range(5):
        before = os.times()
        subprocess.run([sys.argv[1], str(rounds), str(events)], check=True, capture_output=True)
        after = os.times()
        taken = after.children_user + after.children_system - before.children_user - before.children_system
        best = taken if best is None else min(best, taken)
    return best


for events in (65_536, 131_072):
    one = (seconds(ROUNDS + 1, events) - seconds(1, events)) / ROUNDS
    print(f"8 x {events} events: {one * 1e3:.1f} ms a weave, {one * 1e9 / (8 * events):.1f} ns an event")
PYTHON
