#!/usr/bin/env python3
"""Times one plan of typical and of hard tours, and shows how the time grows with the span and with the labels kept.

Wants the program plan_bench, which `tools/program plan_bench` builds. The time of one plan is what a line that asks for N plans takes
longer than one that asks for a single plan, divided by N - 1; each is the least processor time of three runs.
"""
import os
import pathlib
import subprocess

ROOT = pathlib.Path(__file__).resolve().parent.parent
OUT = ROOT / "target/bench"
PROGRAM = ROOT / "crates/plan_bench/out/plan_bench"
TOO_MANY_LABELS = "refused,11"


def run(rules, kept, times, stops):
    """What the program answers, and the processor time that it takes."""
    given, said = OUT / "tour", OUT / "said"
    words = [",".join(map(str, stop)) for stop in stops]
    given.write_text(" ".join([rules, str(3 * kept), str(times)] + words) + "\n")
    with open(given) as lines, open(said, "w") as out:
        child = subprocess.Popen([PROGRAM], stdin=lines, stdout=out)
        _, child.returncode, used = os.wait4(child.pid, 0)
    assert child.returncode == 0
    return said.read_text().strip(), used.ru_utime + used.ru_stime


def time_of(rules, kept, stops):
    """The answer, and the milliseconds of one plan."""
    answer, once = run(rules, kept, 1, stops)
    times = 1 + max(3, min(200, int(0.4 / max(once, 0.001))))
    single, many = (min(run(rules, kept, n, stops)[1] for _ in range(3)) for n in (1, times))
    return answer, 1000 * (many - single) / (times - 1)


def needed(rules, most, stops):
    """The least labels to keep with which the tour is not refused for want of labels."""
    low, high = 1, most
    while low < high:
        middle = (low + high) // 2
        if run(rules, middle, 1, stops)[0] == TOO_MANY_LABELS:
            low = middle + 1
        else:
            high = middle
    return low


def typical(span):
    """Four days at the ends of the quarters of the span: loading at a set time, then three stops 8 quarters apart, each
    to be begun within an hour."""
    stops = []
    for day in range(1, 5):
        at = day * span // 4 - 76
        stops.append((0, 2, at, at))
        at += 2
        for _ in range(3):
            stops.append((8, 2, at + 8, at + 12))
            at += 14
    return stops


def waiting(span, drive):
    """One stop with a short drive, at the end of the span: the driver may drive it at any time."""
    return [(drive, 2, span - 2, span - 2)]


def rounds(span, drive):
    """Such a stop at the end of each 168 quarters of the span."""
    return [(drive, 2, at - 2, at - 2) for at in range(168, span + 1, 168)]


# The slowest found, in two minutes of random tours and among rounds, that are not refused for want of labels.
HARDEST = {
    ("us7", 384, 48): [(1, 2, 190, 190), (0, 4, 380, 380)],
    ("us7", 2688, 48): [(1, 1, 669, 671), (1, 4, 1340, 1340), (1, 3, 2005, 2013), (1, 1, 2685, 2687)],
    ("eu", 384, 48): [(0, 3, 85, 93), (3, 1, 191, 191), (0, 3, 277, 285), (1, 2, 382, 382)],
    ("eu", 2688, 48): [(0, 3, 669, 669), (0, 3, 1341, 1341), (0, 2, 2012, 2014), (4, 1, 2687, 2687)],
    ("us7", 384, 1024): [(40, 4, 32, 92), (6, 2, 189, 190), (40, 4, 284, 284), (40, 1, 382, 383)],
    ("us7", 2688, 1024): rounds(2688, 6),
    ("eu", 384, 1024): [(1, 3, 0, 93), (0, 3, 0, 189), (1, 2, 0, 286), (4, 3, 381, 381)],
    ("eu", 2688, 1024): [
        (4, 1, 327, 335),
        (0, 4, 668, 668),
        (4, 1, 1006, 1007),
        (3, 3, 1341, 1341),
        (2, 3, 1669, 1677),
        (40, 1, 2015, 2015),
        (6, 4, 2347, 2348),
        (80, 3, 2685, 2685),
    ],
}


def show(name, rules, span, kept, stops):
    answer, spent = time_of(rules, kept, stops)
    need = needed(rules, kept, stops)
    print(f"| {name} | {rules} | {span} | {kept} | {need} | {answer} | {spent:.2f} ms |", flush=True)


def main():
    OUT.mkdir(parents=True, exist_ok=True)
    print("| tour | rules | span | K | K needed | answer | one plan |\n|---|---|---|---|---|---|---|")
    for kept in (48, 1024):
        for rules in ("us7", "eu"):
            for span in (384, 2688):
                show("typical", rules, span, kept, typical(span))
                show("hardest", rules, span, kept, HARDEST[rules, span, kept])
    for span in (336, 672, 1344, 2688):
        show("rounds, drive 4", "us7", span, 1024, rounds(span, 4))
    for drive in (1, 2, 4, 6, 8):
        need = needed("us7", 4096, waiting(2688, drive))
        show(f"waiting, drive {drive}", "us7", 2688, need, waiting(2688, drive))


main()
