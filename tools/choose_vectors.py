#!/usr/bin/env python3
"""Chooses the records that `replay` runs, and writes them with their answers.

  choose_vectors.py RUST GLYPHS NAMES > crates/replay/stdin

RUST is a program that reads records as lines of hexadecimal digits and prints what the original Rust
finds in each, closed by a line `end` (docs/VECTORS.md). GLYPHS has a record of a glyph on each line,
NAMES on the same line its font and its name. A refused record has no answer of the Rust: its number
stands beside it in drawings.py. Everything is seeded, so the same arguments give the same list."""
import collections
import random
import re
import subprocess
import sys

import drawings

SEED = "vectors/1"
GLYPHS_PER_FONT = 52
RANDOM_PER_FAMILY = 90
TRIED_PER_FAMILY = 4000
MOST_TEXT = 1800
WANTED = 4


def answers(program, lines):
    """What the program prints of each record, without the height that is adjusted later."""
    run = subprocess.run([program], input="\n".join(lines) + "\n", capture_output=True, text=True, check=True)
    texts = re.sub(r" adjusted -?\d+$", "", run.stdout, flags=re.M).split("end\n")[:-1]
    assert len(texts) == len(lines)
    return texts


# ------------------------------------------------------------------ what a record shows
def built_segments(text, axis):
    out = []
    for line in text.splitlines():
        word = line.split()
        if word[:2] == [axis, "built"]:
            out.append(dict(dir=word[3], pos=int(word[9]), low=int(word[13]), high=int(word[15])))
    return out


OPPOSITE = {"up": "down", "down": "up", "left": "right", "right": "left", "none": None}


def partner_scores(drawing, segments, major, i):
    """The scores of all partners of segment i, and how far each costs: free, by its square, or full."""
    units, width = drawing[:2]
    for j, other in enumerate(segments):
        a, b = (segments[i], other) if segments[i]["dir"] == major else (other, segments[i])
        if a["dir"] != major or b["dir"] != OPPOSITE[major] or b["pos"] <= a["pos"]:
            continue
        overlap = min(a["high"], b["high"]) - max(a["low"], b["low"])
        least = max(1, 8 * units // 2048)
        if overlap < least:
            yield None, "overlap one short" if overlap == least - 1 else "overlap short"
            continue
        distance, cost = b["pos"] - a["pos"], "plain"
        if width:
            excess = 1024 * distance // width - 1024
            cost = "free" if excess <= 0 else "square" if excess <= 10000 else "full"
            distance = {"free": 0, "square": excess * excess // 3000, "full": 32000}[cost]
        yield distance + 6000 * units // 2048 // overlap, cost + (", least overlap" if overlap == least else "")


def linking_features(drawing, text):
    for axis in "HV":
        answer = re.search(r"^%s answer ok \d+ major (\w+)" % axis, text, flags=re.M)
        if not answer:
            yield axis, "17"
            continue
        segments = built_segments(text, axis)
        yield axis, "major", answer[1], bool(segments)
        linked = [l.split() for l in text.splitlines() if l.startswith(axis + " linked")]
        for i, word in enumerate(linked):
            score, link, serif = int(word[4]), word[6], word[8]
            scores = list(partner_scores(drawing, segments, answer[1], i))
            lowest = [s for s, _ in scores if s == score]
            yield axis, "partners", min(len(scores), 2), len(lowest) > 1, link != "-", serif != "-"
            for _, kind in scores:
                yield "cost", kind
            if score == 32000 and any(s is not None for s, _ in scores):
                yield "partner too far",


def features(drawing, text):
    units, width, rule, _ = drawing
    head = text.splitlines()[0].split()
    yield "rule", rule, width > 0
    yield "near is 0", units < 103
    yield "orientation", head[6], "contours", min(int(head[4]), 3)
    for line in text.splitlines():
        word = line.split()
        if word[0] == "P":
            yield "point", rule, word[4], word[5], word[7] == "none", word[9] == "none"
            yield "turn", word[7], word[9]
        elif word[1] == "built":
            yield "built", word[0], word[3], word[-1], int(word[11]) > 0, int(word[5]) > int(word[7])
    yield from linking_features(drawing, text)


# Settings changed a little: a record whose answer then changes stands at an edge of some rule. The near
# limit changes with every 103 units, and the span of a round segment with every 14.
CHANGES = [("rule", lambda u, w, c: (u, w, 1 - c))]
CHANGES += [("units %+d" % by, lambda u, w, c, by=by: (u + by, w, c)) for by in (-103, -14, -1, 1, 14, 103)]
CHANGES += [("width %+d" % by, lambda u, w, c, by=by: (u, w + by, c)) for by in (-1, 1)]


def changed_values(one, other):
    """Which kinds of values differ between two texts of one drawing."""
    one, other = one.splitlines(), other.splitlines()
    if len(one) != len(other):
        yield "count"
    for a, b in zip(one, other):
        for k, (v, w) in enumerate(zip(a.split(), b.split())):
            if v != w:
                yield a.split()[0] + a.split()[1][:1] * (a[0] != "P") + str(k)


def edge_features(program, lines, texts):
    """For each record, which values change with which change of its settings."""
    shown = [set() for _ in lines]
    for name, change in CHANGES:
        at, changed = [], []
        for i, line in enumerate(lines):
            units, width, rule, points = drawing_of(line)
            units, width, rule = change(units, width, rule)
            if 16 <= units <= 16384 and 0 <= width <= 16383:
                at.append(i)
                changed.append(drawings.hexline((units, width, rule, points)))
        for i, text in zip(at, answers(program, changed)):
            shown[i].update((name, value) for value in changed_values(texts[i], text))
    return shown


# ------------------------------------------------------------------ the choice
def drawing_of(line):
    data = bytes.fromhex(line)
    number = lambda i, signed: int.from_bytes(data[i:i + 2], "big", signed=signed)
    points = [(number(i, True), number(i + 2, True), data[i + 4]) for i in range(8, len(data), 5)]
    return number(3, False), number(5, False), data[7], points


class Choice:
    def __init__(self):
        self.seen, self.records = collections.Counter(), []

    def take_all(self, program, lines):
        texts = answers(program, lines)
        for line, text, edges in zip(lines, texts, edge_features(program, lines, texts)):
            self.take(line, text, edges | set(features(drawing_of(line), text)))

    def take(self, line, text, shown):
        self.seen.update(shown)
        self.records.append((line, text))

    def take_wanted(self, program, lines, most):
        """Of small records, those that show something that few chosen ones show."""
        pool = [(l, t) for l, t in zip(lines, answers(program, lines)) if len(l) + len(t) <= MOST_TEXT]
        lines, texts = [l for l, _ in pool], [t for _, t in pool]
        for line, text, edges in zip(lines, texts, edge_features(program, lines, texts)):
            shown = edges | set(features(drawing_of(line), text))
            if most and any(self.seen[f] < WANTED for f in shown):
                self.take(line, text, shown)
                most -= 1


def glyph_lines(glyphs, names):
    """Of each font its shortest glyphs, each with one of its settings in turn, and some long ones."""
    by_font = collections.defaultdict(lambda: collections.defaultdict(list))
    for line, name in zip(open(glyphs), open(names)):
        font, glyph = name.split()[:2]
        by_font[font][glyph].append(line.strip())
    for font in sorted(by_font):
        by_length = sorted(by_font[font], key=lambda glyph: (len(by_font[font][glyph][0]), glyph))
        for i, glyph in enumerate(by_length[:GLYPHS_PER_FONT] + by_length[-20::10]):
            settings = by_font[font][glyph]
            yield settings[i % len(settings)]


def main():
    program, glyphs, names = sys.argv[1:]
    choice = Choice()
    made = [drawings.hexline(d) for _, d in drawings.EDGES]
    real = list(glyph_lines(glyphs, names))
    choice.take_all(program, made + real)
    r = random.Random(SEED)
    for family in ("corners", "mixed", "stems", "extreme"):
        lines = [drawings.hexline(drawings.FAMILIES[family](r)) for _ in range(TRIED_PER_FAMILY)]
        before = len(choice.records)
        choice.take_wanted(program, lines, RANDOM_PER_FAMILY)
        sys.stderr.write("%s: %d\n" % (family, len(choice.records) - before))
    records = choice.records + [(h, "refused %d\n" % n) for n, h in drawings.refused_records()]
    big = [drawings.hexline(d) for _, d in drawings.LARGE_EDGES]
    records += zip(big, answers(program, big))
    for line, text in records:
        sys.stdout.write("record %s\n%send\n" % (line, text))
    sys.stderr.write("%d records, %d of glyphs, %d things shown\n" % (len(records), len(real), len(choice.seen)))


if __name__ == "__main__":
    main()
