#!/usr/bin/env bash
# Times loads and stores over `Pages`, a proved program, beside those of an interpreter in C, in one run.
#
#   bench/pages.sh [ROUNDS [REFERENCE.c]]
#
# A round is one load and one store of four bytes, at addresses that jump about in 64 pages; 100,000,000 rounds where no
# number is given. REFERENCE.c, or the file that PAGES_REFERENCE names, is a C program with a `main`, and with the
# functions `map(page, rights)`, `ld(addr, width)` and `st(addr, width, value)` on pages with rights. Where there is none,
# the proved program alone is timed.
set -euo pipefail

rounds=${1:-100000000}
reference=${2:-${PAGES_REFERENCE:-}}
tries=5
top=$(cd "$(dirname "$0")/.." && pwd)
work=$(mktemp -d)
trap 'rm -rf "$work"' EXIT

# the least of some runs, in processor seconds
seconds() {
    local least='' took TIMEFORMAT='%U %S'
    for _ in $(seq "$tries"); do
        took=$({ time "$@" >"$work/last"; } 2>&1 | awk '{ printf "%.3f", $1 + $2 }')
        if [ -z "$least" ] || awk -v a="$took" -v b="$least" 'BEGIN { exit !(a < b) }'; then least=$took; fi
    done
    echo "$least"
}

(cd "$top/crates/bench_pages" && rt run -- 1000 >"$work/build" 2>&1) || { cat "$work/build"; exit 1; }
program=$top/crates/bench_pages/out/bench_pages

ours=$(seconds "$program" "$rounds")
cp "$work/last" "$work/ours"
echo "pages:     $ours s for $rounds loads and as many stores"

if [ -z "$reference" ] || [ ! -f "$reference" ]; then
    echo "reference: none given, so nothing is compared"
    exit 0
fi

cat >"$work/reference.c" <<END
#define main reference_main
#include "$(realpath "$reference")"
#undef main
int main(int argc, char **argv) {
  uint32_t rounds = strtoul(argv[1], 0, 10), sum = 0, place = 1;
  for (uint32_t page = 16; page < 80; page++) map(page, 6);
  for (uint32_t i = 0; i < rounds; i++) {
    place = place * 1664525u + 1013904223u;
    uint32_t addr = 16 * 4096 + place % 0x10000 * 4;
    sum += ld(addr, 4);
    st(addr, 4, sum ^ i);
  }
  printf("%u rounds, sum %u\n", rounds, sum);
  return 0;
}
END
cc -O2 -w -o "$work/reference" "$work/reference.c"
theirs=$(seconds "$work/reference" "$rounds")
cmp -s "$work/last" "$work/ours" || { echo "the two programs differ:"; cat "$work/ours" "$work/last"; exit 1; }
echo "reference: $theirs s"
awk -v a="$ours" -v b="$theirs" 'BEGIN { printf "ratio:     %.2f (above 1: the proved program is faster)\n", b / a }'
