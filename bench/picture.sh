#!/usr/bin/env bash
# Processor seconds and bytes of the pictures of 100,000 events on one, four and eight nodes:
#   bench/picture.sh [EVENTS]
# It measures crates/run_picture/out/run_picture, which `rt run` in that folder builds. The reports are made up: processes that make
# steps and calls, wait, are told signals and move. The best of five runs counts.
set -euo pipefail
cd "$(dirname "$0")/.."
exec python3 - "${1:-100000}" <<'PYTHON'
import heapq, os, random, subprocess, sys
import xml.etree.ElementTree as ElementTree

PROGRAM = os.environ.get("PICTURE", "crates/run_picture/out/run_picture")


class Run:
    """A made-up run: every event has a stamp above all that its node has seen."""

    def __init__(self, nodes, processes, seed):
        self.random = random.Random(seed)
        self.nodes, self.clock, self.lines, self.moves = nodes, [0] * nodes, [], []
        self.place = {pid: 0 for pid in range(1, processes + 1)}

    def event(self, node, text, seen=0):
        self.clock[node] = max(self.clock[node], seen) + 1
        self.lines.append((self.clock[node], node, text))
        return self.clock[node]

    def call(self, pid):
        node, number = self.place[pid], self.random.randrange(1, 20)
        sent = self.event(node, f"sent {pid} {number}")
        if self.random.random() < 0.2:
            self.event(0, f"held {pid} {number}", sent)
        taken = 10 if self.random.random() < 0.05 else "-"
        served = self.event(0, f"served {pid} did {number} 3 {taken} - 0 - -", sent)
        self.event(node, f"got {pid} - 0 - -", served)

    def move(self, pid):
        source, target = self.place[pid], self.random.randrange(self.nodes)
        if source == target:
            return
        begun = self.event(source, f"begin {pid} {target} 1")
        if self.random.random() < 0.2:
            denied = self.event(target, f"deny {pid} {source} 20 10", begun)
            self.event(source, f"stay {pid} {target} 20 10", denied)
            return
        allowed = self.event(target, f"allow {pid} {source} 20", begun)
        left = self.event(source, f"depart {pid} {target}", allowed)
        landed = self.event(target, f"land {pid} {source}", left)
        self.event(0, f"told {pid} {target} {source} 1 1 -", landed)
        self.moves.append(f"move {pid} {source} {target}")
        self.place[pid] = target

    def turn(self):
        pid = self.random.choice(list(self.place))
        for _ in range(self.random.randrange(1, 4)):
            self.event(self.place[pid], f"steps {pid} 16384")
        chance = self.random.random()
        if chance < 0.6:
            self.call(pid)
        elif chance < 0.65:
            self.event(self.place[pid], f"poked {pid} 1")
        elif chance < 0.75:
            self.move(pid)

    def report(self, events):
        while len(self.lines) < events:
            self.turn()
        lines = sorted(self.lines)
        head = ["terminal 0", ""] + [f"process {pid} live" for pid in self.place] + self.moves + ["stuck", f"events {len(lines)}"]
        return "\n".join(head + [f"{stamp} {node} {text}" for stamp, node, text in lines]) + "\n"


def seconds_of(report):
    before = os.times()
    done = subprocess.run([PROGRAM], input=report.encode(), capture_output=True)
    after = os.times()
    if done.returncode:
        sys.exit(f"status {done.returncode}: {done.stdout[:80]!r}")
    return after.children_user + after.children_system - before.children_user - before.children_system, done.stdout


for nodes, processes in [(1, 3), (4, 16), (8, 64)]:
    run = Run(nodes, processes, seed=nodes)
    report = run.report(int(sys.argv[1]))
    seconds, picture = min(seconds_of(report) for _ in range(5))
    classes = [element.get("class", "").split(" ")[0] for element in ElementTree.fromstring(picture).iter()]
    lanes, arrows = classes.count("lane"), classes.count("m") - 1
    assert lanes == nodes and arrows == len(run.moves), (lanes, arrows, len(run.moves))
    print(f"{nodes} nodes, {len(run.lines)} events, {arrows} moves: {seconds:.2f} s, {len(picture)} bytes")
PYTHON
