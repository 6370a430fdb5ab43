#!/usr/bin/env python3
"""Seeded tables of segments, to compare `linktables` with the original's linking.

  link_tables.py SEED COUNT FAMILY > tables
  crates/linktables/out/linktables < tables > own
  OUT/original --link < tables > its        (docs/VECTORS.md says how OUT/original is built)

A line is the units, the width, the major direction, and for each entry its direction, position, least
and greatest coordinate. FAMILY any: any 16-bit numbers, least above greatest too; ties: few positions
and coordinates, so that scores are equal; widths: distances near multiples of the width; large: 100
to 1,001 entries."""
import random
import sys

DIRS = ["up", "down", "left", "right", "none"]
OPPOSITE = {"up": "down", "down": "up", "left": "right", "right": "left", "none": "up"}


def any_table(r):
    units = r.choice([16, 17, 255, 256, 300, 1000, 2048, 16384, r.randint(16, 16384)])
    width = r.choice([0, 0, 1, 2, 50, 100, 16383, r.randint(1, 16383)])
    major = r.choice(DIRS)
    use = r.choice([DIRS, ["up", "down"], [major, OPPOSITE[major]]])
    full = r.random() < 0.2
    span = 32767 if full else r.choice([3, 20, 200, 16383])

    def pick():
        return r.randint(-span - (1 if full else 0), span)

    entries = []
    for _ in range(r.choice([0, 1, 2, 3, 5, 8, 20])):
        low, high = pick(), pick()
        if low > high and r.random() < 0.8:
            low, high = high, low
        entries.append((r.choice(use), pick(), low, high))
    return units, width, major, entries


def ties(r):
    major = r.choice(DIRS[:4])
    units = r.choice([16, 300, 1000, 2048])
    width = r.choice([0, 0, 1, 10, 100, 1000])
    step = r.choice([1, 10, 100])
    places = r.randint(2, 5)
    coords = [(0, 700), (0, 350), (350, 700), (0, 3), (0, 2)]
    entries = [
        (r.choice([major, OPPOSITE[major]]), step * r.randrange(places), *r.choice(coords[: r.randint(1, 5)]))
        for _ in range(r.randint(2, 14))
    ]
    return units, width, major, entries


def widths(r):
    major = r.choice(DIRS[:4])
    width = r.choice([1, 2, 3, 50, 99, 100, 1000, 3000, 16383, r.randint(1, 16383)])
    units = r.choice([16, 1000, 2048, 16384])
    times = [0, 1, 1, 1.5, 2, 5, 9, 10, 10.5, 10.77, 10.8, 11]
    entries = []
    for _ in range(r.randint(2, 12)):
        far = max(-32768, min(32767, int(width * r.choice(times)) + r.randint(-3, 3)))
        way = r.choice([major, OPPOSITE[major]])
        entries.append((way, r.choice([far, r.randint(-3, 3)]), r.randint(-100, 0), r.randint(0, 700)))
    return units, width, major, entries


def large(r):
    major = r.choice(DIRS[:4])
    count = r.choice([100, 300, 1000, 1001])
    span = r.choice([50, 2000, 16383])
    entries = [
        (r.choice([major, OPPOSITE[major]]), r.randint(-span, span), *sorted((r.randint(-span, span), r.randint(-span, span))))
        for _ in range(count)
    ]
    return r.choice([16, 1000, 2048, 16384]), r.choice([0, 50, 500]), major, entries


def main():
    r = random.Random(int(sys.argv[1]))
    make = {"any": any_table, "ties": ties, "widths": widths, "large": large}[sys.argv[3]]
    for _ in range(int(sys.argv[2])):
        units, width, major, entries = make(r)
        words = ["%d %d %s" % (units, width, major)] + ["%s %d %d %d" % e for e in entries]
        print(" ".join(words))


main()
