#!/usr/bin/env python3
"""Tries random lists of calls on the right sender, which keeps every promise, and on each wrong one, and prints for each which
promises some list breaks, with a short list that breaks the most telling one. It takes about four minutes; the choices are seeded.
"""
import random
import time
from collections import defaultdict
from itertools import groupby

from history import room, sum_before
from planted import PLANTED
from promises import PROMISES, Start, is_broken, never_wider, pool_up, run
from sender import MODULUS, Reno, Sender, finish

# words to draw: plain ones, some that are often alike, and some whose sums wrap around
PLAIN = tuple(range(10, 2000, 10))
ALIKE = tuple(random.Random(2).choices((1, 2, 3), k=500))
LARGE = tuple(random.Random(3).choices((5, MODULUS - 1), k=500))
KINDS = ("send", "advance", "duplicate", "timeout", "take", "repeat", "put_back")

def acknowledgement(rng, h, sender, is_duplicate, wrongness):
    """At E, at a segment's end or inside it, or anywhere; mostly with the true sum, or the one that this sender takes for it."""
    gs, sent = h.segments, h.bytes()
    ends = [sent, rng.randint(0, sent + 1)] + [rng.choice((g.start + 1, finish(g) - 1, finish(g), finish(g))) for g in gs]
    end = rng.choice((h.farthest, sender.proved) if is_duplicate else ends)
    total = rng.choice((sum_before(end, gs), sender.true_sum(end)))
    if rng.random() < wrongness:
        total = rng.choice((0, (total + 1) % MODULUS, rng.getrandbits(64)))
    echoes = [g.single for g in gs if g.start > h.farthest] * 4 + [g.single for g in gs] + [7]
    return ("acknowledge", end, total, rng.choice(echoes) if is_duplicate else 0)

def random_run(rng, kind):
    """Each run has its own liking for the kinds of calls and for wrong sums; a few runs fill the table."""
    M, is_crowd, wrongness = rng.choice((64, 100, 100)), rng.random() < 0.002, rng.choice((0, 0.1, 0.5))
    words = rng.choice((PLAIN, PLAIN, PLAIN, PLAIN[:5], ALIKE[rng.randrange(300):], LARGE[rng.randrange(300):]))
    start = Start(Reno(M, 4 * M), words)
    weights = [rng.choice((2, 4, 6))] + rng.choices((0, 1, 2, 6), k=2) + rng.choices((0, 0, 1, 2), k=4)
    def propose(h, sender):
        name = rng.choices(KINDS, weights)[0]
        if name == "send":
            fitting = min(max(room(start.control, h) + rng.choice((0, 1)), 0), M)
            return (name, rng.choice((1, 2, M // 2, M + 1, M, fitting, fitting, fitting)))
        if name in ("advance", "duplicate"):
            return acknowledgement(rng, h, sender, name == "duplicate", wrongness)
        return (name, rng.choice([g.start for g in h.segments] + [0, 1])) if name in ("repeat", "put_back") else (name,)
    def choose(i, h, sender):
        if is_crowd and i < 66:
            return ("send", 1)
        for _ in range(rng.choice((1, 3))):
            call = propose(h, sender)
            if not any(check[0] for check in sender.checks(*call)):
                break
        return call
    return run(kind, start, 68 if is_crowd else rng.choice((rng.randint(2, 6), rng.randint(6, 22))), choose)

def search(kind, seed, count):
    """For each promise that some random list breaks, a few short lists that do; and how many calls were made."""
    rng, found, pool, made = random.Random(seed), defaultdict(list), {}, 0
    for _ in range(count):
        steps = random_run(rng, kind)
        made += len(steps)
        for name in PROMISES:
            if is_broken(name, kind, steps):
                found[name] = sorted(found[name] + [(steps[0].start, [s.call for s in steps])], key=lambda f: len(f[1]))[:20]
        pool_up(pool, steps)
    pairs = never_wider(pool)
    return {**found, "never_wider": pairs} if pairs else dict(found), made

def shrunk(name, kind, start, calls):
    """Leaves out one call after another while the promise is still broken."""
    for i in reversed(range(len(calls))):
        fewer = calls[:i] + calls[i + 1:]
        if is_broken(name, kind, run(kind, start, len(fewer), lambda i, *_: fewer[i])):
            return shrunk(name, kind, start, fewer)
    return start, calls

def in_words(start, calls):
    said = {"send": "send {}", "acknowledge": "ack {} ({}, {})", "repeat": "repeat {}", "put_back": "put back {}"}
    lines = [(said.get(call[0], call[0]).format(*call[1:]), len(list(same))) for call, same in groupby(calls)]
    words = start.words[:2 * sum(call[0] == "send" for call in calls)]
    size = "" if start.control.segment == 100 else f"M {start.control.segment}; "
    drawn = "" if words == PLAIN[:len(words)] else f"words {', '.join(map(str, words))}; "
    return size + drawn + ", ".join(line if n == 1 else f"{line} ({n} times)" for line, n in lines)

def row(title, telling, kind, seed):
    """The line of the report, and whether a promise that should tell the bug was broken."""
    found, _ = search(kind, seed, 3500)
    name = next((n for n in telling + list(found) if n in found), None)
    lists = [shrunk(name, kind, *f) for f in found.get(name, [])]
    shortest = min(lists, key=lambda f: (len(f[1]), len(in_words(*f))), default=(Start(Reno(100, 400), PLAIN), []))
    broken = [f"**{n}**" if n == name else n for n in sorted(found, key=lambda n: n != name)]
    return f"| {title} | {', '.join(broken) or 'none'} | {in_words(*shortest)} |", name in telling

def main():
    began, count = time.time(), 20_000
    found, made = search(Sender, 1, count)
    print(f"The right sender on {count} lists with {made} calls breaks: {found or 'no promise'}")
    rows = [row(*planted, seed) for seed, planted in enumerate(PLANTED)]
    report = ["M = 100 and the words 10, 20, .. unless told; `ack end (sum, echo)`. The list breaks the promise in bold.", "",
              "| Planted | Promises that some list breaks | Shortest list found |", "|---|---|---|", *(line for line, _ in rows)]
    print("\n".join(report))
    print("Not shown by the promise that should tell it:", [line for line, is_told in rows if not is_told] or "none")
    print(f"{time.time() - began:.0f} s")
    raise SystemExit(bool(found) or not all(is_told for _, is_told in rows))

if __name__ == "__main__":
    main()
