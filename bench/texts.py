#!/usr/bin/env python3
"""Times whole texts of 4,096 bytes filled with plans: the program of ./hours and the reference in plain Rust, in one run.

Wants the program hours_text, which `tools/program hours_text` builds, and rustc for bench/reference. Each figure is the least processor
time of five runs of the program, its start included; the two replies are compared but for the schedules, whose choice is free.
"""
import os
import pathlib
import subprocess

ROOT = pathlib.Path(__file__).resolve().parent.parent
OUT = ROOT / "target/bench"
HOURS = [str(ROOT / "crates/hours_text/out/hours_text")]
REFERENCE = [str(ROOT / "target/reference/reference"), "hours"]

# The slowest found among random tours, by whether the plan is taken or refused for want of labels, and a short one.
TOURS = [
    ("a plain day", "eu", [(36, 2, 0, 39)]),
    ("two late stops, taken", "us7", [(1, 2, 190, 190), (0, 4, 380, 380)]),
    ("four stops, taken", "eu", [(0, 3, 85, 93), (3, 1, 191, 191), (0, 3, 277, 285), (1, 2, 382, 382)]),
    ("three stops, too many labels", "us8", [(0, 2, 150, 150), (1, 2, 233, 234), (8, 2, 324, 326)]),
    ("five stops, too many labels", "us8", [(6, 1, 6, 6), (1, 4, 108, 108), (6, 3, 178, 182), (1, 1, 206, 208), (10, 1, 279, 279)]),
]


def text_of(rules, stops):
    """As many plans as fit into 4,096 bytes after the stops."""
    head = f"rules,{rules}\n" + "".join("stop,%d,%d,%d,%d\n" % stop for stop in stops)
    return head + "plan\n" * ((4096 - len(head)) // len("plan\n"))


def run(command, text):
    """What the program writes, and the processor time that it takes."""
    given, said = OUT / "text", OUT / "reply"
    given.write_text(text)
    with open(given) as lines, open(said, "w") as out:
        child = subprocess.Popen(command, stdin=lines, stdout=out)
        _, child.returncode, used = os.wait4(child.pid, 0)
    assert child.returncode == 0
    return said.read_text(), used.ru_utime + used.ru_stime


def timed(command, text):
    runs = [run(command, text) for _ in range(5)]
    return runs[0][0], min(took for _, took in runs)


def without_schedules(reply):
    return [line for line in reply.splitlines() if not line[:1].isdigit()]


def main():
    OUT.mkdir(parents=True, exist_ok=True)
    (ROOT / "target/reference").mkdir(parents=True, exist_ok=True)
    subprocess.run(["rustc", "-O", "--edition", "2024", "-o", REFERENCE[0], str(ROOT / "bench/reference/main.rs")], check=True)
    print("| text | plans | hours | plain Rust | ratio |")
    print("|---|---|---|---|---|")
    for title, rules, stops in TOURS:
        text = text_of(rules, stops)
        ours, took = timed(HOURS, text)
        theirs, plain = timed(REFERENCE, text)
        assert without_schedules(ours) == without_schedules(theirs), title
        print(f"| {title} | {text.count('plan')} | {took:.2f} s | {plain:.2f} s | {took / max(plain, 0.001):.1f} |")


main()
