#!/usr/bin/env python3
"""Times frontier_pairs against the same two passes in plain Rust: the same pairs, as often, and the same output.

Wants rustc, and the program frontier_pairs, which `tools/program frontier_pairs` builds. Each figure is the least processor time of nine
runs.
"""
import os
import pathlib
import subprocess

ROOT = pathlib.Path(__file__).resolve().parent.parent
OUT = ROOT / "target/bench"
PROVED = ROOT / "crates/frontier_pairs/out/frontier_pairs"
PLAIN = OUT / "frontier"


def run(program, pairs, times):
    """What the program writes, and the processor time that it takes."""
    said = OUT / "said"
    with open(pairs) as given, open(said, "w") as out:
        child = subprocess.Popen([program, str(times)], stdin=given, stdout=out)
        _, child.returncode, used = os.wait4(child.pid, 0)
    assert child.returncode == 0
    return said.read_text(), used.ru_utime + used.ru_stime


def compare(name, pairs, times):
    runs = [(run(PROVED, pairs, times), run(PLAIN, pairs, times)) for _ in range(9)]
    said = {text for both in runs for text, _ in both}
    assert len(said) == 1, "the two programs disagree"
    kept = said.pop().split()[0]
    proved, plain = (min(both[k][1] for both in runs) for k in (0, 1))
    print(f"{name}, {kept} kept, {times} times: proved {proved:.2f} s, plain {plain:.2f} s, ratio {proved / plain:.2f}")


def main():
    OUT.mkdir(parents=True, exist_ok=True)
    subprocess.run(["rustc", "-O", "-o", PLAIN, ROOT / "bench/frontier.rs"], check=True)
    most = OUT / "most_covered"
    with open(most, "w") as out:
        subprocess.run([ROOT / "tools/pairs.py", "make", "7", "4000", "300"], stdout=out, check=True)
    compare("4000 pairs, most of them covered", most, 3000)
    none = OUT / "none_covered"
    none.write_text("".join(f"{2 * k} {8000 - 3 * k}\n" for k in range(1, 2001)))
    compare("2000 pairs, none of them covered", none, 300)


main()
