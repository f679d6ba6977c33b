#!/usr/bin/env python3
"""Makes pairs of numbers for frontier_pairs, and what it should print of them.

    pairs.py make SEED COUNT NOISE    writes COUNT pairs; less NOISE leaves more of them kept
    pairs.py expect FEW               reads pairs, and writes what frontier_pairs should print of them:
                                      what it keeps with places enough, with FEW, and in place

What is kept is worked out from its definition, over all pairs at once: a pair is kept where none before it
covers it, and none after it does unless it is covered in turn. No pair is offered or removed here.
"""
import random
import sys


def covers(p, q):
    return p[0] <= q[0] and p[1] <= q[1]


def smallest_cover(seen):
    return [
        p
        for j, p in enumerate(seen)
        if not any(covers(q, p) for q in seen[:j])
        and not any(covers(q, p) and not covers(p, q) for q in seen[j + 1 :])
    ]


def make(seed, count, noise):
    rnd = random.Random(seed)
    pairs = []
    for k in range(count):
        if k % 9 == 4:
            pairs.append(rnd.choice(pairs))
        else:
            share = rnd.random()
            reach = 4000 * (1.0 - 0.8 * k / count)
            pairs.append((int(reach * share + rnd.randrange(noise)), int(reach * (1 - share) + rnd.randrange(noise))))
    return pairs


def lines(kept):
    return [f"{len(kept)} kept"] + [f"{a} {b}" for a, b in kept]


def expect(pairs, few):
    fits = next((n for n in range(len(pairs)) if len(smallest_cover(pairs[: n + 1])) > few), len(pairs))
    refused = [] if fits == len(pairs) else ["refused: 11"]
    whole = lines(smallest_cover(pairs))
    return whole + refused + lines(smallest_cover(pairs[:fits])) + whole


def main(words):
    if words[0] == "make":
        for a, b in make(*map(int, words[1:])):
            print(a, b)
    else:
        pairs = [tuple(map(int, line.split())) for line in sys.stdin]
        print("\n".join(expect(pairs, int(words[1]))))


main(sys.argv[1:])
