#!/usr/bin/env python3
"""Seeded editing days: the calls made on one sheet after another, without their answers.

  days.py SEED GLYPHS > calls

GLYPHS has a record of a glyph on each line, in hexadecimal digits. docs/VECTORS.md says what the lines are. The
generator follows what the sheet should hold, so that it knows which contours and points can be asked for;
whether a call is granted is for others to say."""
import random
import sys

import drawings
from drawings import LIMIT

MOST_POINTS = 2048
MOST_CONTOURS = 128
FAR = 2 ** 31
HUGE = 2 ** 64 - 1


# ------------------------------------------------------------------ sources
def fits(points, least, most):
    return all(least <= c <= most for x, y, _ in points for c in (x, y))


def step(r):
    return r.choice([0, 1, -1, r.randint(-60, 60), r.randint(-60, 60), r.randint(-3000, 3000), r.randint(-16000, 16000)])


def written(r, points, moves=(), record=None):
    """The words of a source: its points, and the placements over them, the lowest first."""
    if record is None:
        record = fits(points, -32768, 32767) and r.random() < 0.6
    if record:
        body = b"".join((x & 0xFFFF).to_bytes(2, "big") + (y & 0xFFFF).to_bytes(2, "big") + bytes([k]) for x, y, k in points).hex()
    else:
        body = ";".join("%d,%d,%d" % p for p in points)
    return " ".join(["record" if record else "table", body or "-"] + ["%d,%d" % m for m in moves])


def below(points, dx, dy):
    return [(x - dx, y - dy, k) for x, y, k in points]


def placed(r, points):
    """A source of these points under up to two placements. What is lowest may lie out of range before it is moved."""
    moves = []
    for _ in range(r.choice([0, 0, 1, 1, 2])):
        dx, dy = step(r), step(r)
        if r.random() < 0.05:
            dx = r.choice([-1, 1]) * r.randint(FAR - 40000, FAR - 20000)
        moves.insert(0, (dx, dy))
        points = below(points, dx, dy)
        if not fits(points, -LIMIT, LIMIT):
            break
    return written(r, points, moves)


def some_moves(r):
    return [(r.randint(-20, 20), r.randint(-20, 20)) for _ in range(r.choice([0, 1, 2]))]


# ------------------------------------------------------------------ sources that are refused
def at_some(r, points, change):
    """The points with one of them changed."""
    i = r.randrange(len(points))
    return points[:i] + [change(*points[i])] + points[i + 1:]


def with_bad_kind(r, points):
    bad = at_some(r, points, lambda x, y, k: (x, y, r.choice([4, 5, 7, 128, 255])))
    return written(r, bad, some_moves(r), record=True)


def moved_out(r, points):
    """One placement puts the rightmost points out of range; others stand below and above it."""
    dx = LIMIT - max(x for x, _, _ in points) + r.choice([1, 1, 2, 300])
    dy = 0
    if r.random() < 0.5:
        points, dx, dy = [(y, x, k) for x, y, k in points], dy, dx
    moves = [(dx, dy)]
    if r.random() < 0.5:
        moves.insert(0, (0, 0))
    elif r.random() < 0.7:
        moves.append((-dx, -dy))
    return written(r, points, moves)


def moved_far(r, points):
    moves = [(r.choice([-FAR, FAR - 1]), r.choice([-FAR, FAR - 1, 0]))]
    return written(r, at_some(r, points, lambda x, y, k: (r.choice([-FAR, FAR - 1]), y, k)), moves, record=False)


def out_of_range(r, points):
    c = r.choice([-1, 1]) * r.choice([16384, 16385, 20000, 32767])
    change = r.choice([lambda x, y, k: (c, y, k), lambda x, y, k: (x, c, k)])
    return written(r, at_some(r, points, change))


def far_out(r, points):
    c = r.choice([-FAR, FAR - 1, 65536, -65536, 65537, 100000])
    change = r.choice([lambda x, y, k: (c, y, k), lambda x, y, k: (x, c, k)])
    return written(r, at_some(r, points, change), record=False)


def two_faults(r, points):
    """A kind that is unknown and a point out of range, at one point or at two."""
    one = at_some(r, points, lambda x, y, k: (16384, y, k))
    return written(r, at_some(r, one, lambda x, y, k: (x, y, 9)), record=True)


BAD = [with_bad_kind, with_bad_kind, moved_out, moved_out, moved_far, out_of_range, far_out, two_faults]


# ------------------------------------------------------------------ a day
class Day:
    """The calls of one day, and the contours that the sheet should then hold."""

    def __init__(self, r, units, width, corner, contour):
        self.r, self.units, self.contour = r, units, contour
        self.lines = ["day %d %d %s" % (units, width, ("jit", "aot")[corner])]
        self.held = []

    def call(self, *words):
        self.lines.append(" ".join(map(str, words)))

    def count(self):
        return sum(map(len, self.held))

    def some(self):
        return self.r.randrange(len(self.held))

    # calls that should be granted
    def place(self, points):
        contours = cut(points)
        if self.count() + len(points) > MOST_POINTS or len(self.held) + len(contours) > MOST_CONTOURS:
            return
        if self.r.random() < 0.3:
            x, y, k = points[0]
            points = [(x, y, k & 1)] + points[1:]
        self.call("place", placed(self.r, points))
        self.held += contours

    def replace(self, points):
        k = self.some()
        points = [(x, y, kind & 1) for x, y, kind in cut(points)[0]]
        if self.count() - len(self.held[k]) + len(points) > MOST_POINTS:
            return
        if self.r.random() < 0.5:
            points[0] = (points[0][0], points[0][1], points[0][2] | 2)
        self.call("replace", k, placed(self.r, points))
        self.held[k] = points

    def drop(self, k):
        self.call("drop", k)
        del self.held[k]
        if self.r.random() < 0.1:
            self.ask_past()

    def clear(self):
        self.call("clear")
        self.held = []
        self.ask_past()

    def move(self, k, j, x, y):
        self.call("move", k, j, x, y)
        self.held[k][j] = (x, y, self.held[k][j][2])

    def move_some(self):
        r, k = self.r, self.some()
        j = r.randrange(len(self.held[k]))
        x, y, _ = self.held[k][j]
        other = r.choice(self.held[self.some() if r.random() < 0.3 else k])
        near = drawings.near(self.units)
        away = r.choice([1, 2, near, near + 1, 15, 30, 200])
        x, y = r.choice([
            (x + r.randint(-away, away), y), (x, y + r.randint(-away, away)),
            (x + r.randint(-away, away), y + r.randint(-away, away)),
            (other[0], y), (x, other[1]), (other[0], other[1]), (x, y),
            (r.randint(-self.units, self.units), r.randint(-self.units, self.units)),
            (r.choice([-LIMIT, LIMIT, x]), r.choice([-LIMIT, LIMIT, y])),
        ])
        self.move(k, j, drawings.clip(x), drawings.clip(y))

    def read(self):
        self.call("read", self.r.choice("HV"), self.r.choice([1001, 1001, 1001, 1050]))

    def read_both(self):
        self.call("read H 1001")
        self.call("read V 1001")

    # calls that should be refused
    def past(self, count):
        return self.r.choice([count, count, count + 1, 128, 65536, HUGE]) if count < 128 else HUGE

    def refuse(self):
        r = self.r
        points = self.contour(r)
        f = r.randrange(12)
        if f <= 2:
            self.call("place", r.choice(BAD)(r, points))
        elif f == 3 and self.held:
            k = self.some()
            self.call("replace", k, r.choice(BAD)(r, [(x, y, kind & 1) for x, y, kind in points]))
        elif f == 4:
            self.call("replace", self.past(len(self.held)), r.choice([placed(r, points), "record -", with_bad_kind(r, points)]))
        elif f == 5:
            self.call("drop", self.past(len(self.held)))
        elif f == 6:
            self.call("move", self.past(len(self.held)), 0, 0, r.choice([0, 16384]))
        elif f == 7 and self.held:
            k = self.some()
            self.call("move", k, self.past(len(self.held[k])), r.choice([0, -16384]), 5)
        elif f == 8 and self.held:
            k = self.some()
            c = r.choice([-1, 1]) * r.choice([16384, 16385, 65536, FAR - 1])
            x, y = r.choice([(c, 0), (0, c), (c, c)])
            self.call("move", k, r.randrange(len(self.held[k])), x, y)
        elif f == 9:
            place = r.choice(["place", "replace %d" % self.some()]) if self.held else "place"
            self.call(place, r.choice(["record -", "table -", "record - 5,-5", "table - 1,1 2,2"]))
        elif f == 10 and self.held:
            self.second_contour(points)
        else:
            self.call("read", r.choice("HV"), r.choice([0, 1, 1000, 1000]))

    def second_contour(self, points):
        """A source of two contours for `replace`; the second one's first point may be at fault, too."""
        r = self.r
        more = self.contour(r)
        x, y, k = more[0]
        first = r.choice([(x, y, k | 2), (x, y, k | 2), (16384, y, 3), (x, y, 6)])
        self.call("replace", self.some(), written(r, points + [first] + more[1:], record=True if first[2] > 3 else None))

    # questions
    def ask_past(self):
        """For what would come after the last point and the last contour."""
        self.call("point", self.count())
        self.call("contour", len(self.held))

    def ask(self):
        r = self.r
        if r.random() < 0.5:
            self.call("point", r.choice([0, self.count(), HUGE, r.randrange(self.count() + 1)]))
        else:
            self.call("contour", r.choice([0, len(self.held), HUGE, r.randrange(len(self.held) + 1)]))

    # a day's work
    def work(self, calls, most_contours):
        """So many calls, most of them granted."""
        r, until = self.r, len(self.lines) + calls
        while len(self.lines) < until:
            f = r.random()
            if not self.held or (f < 0.24 and len(self.held) < most_contours):
                self.place(self.contour(r))
            elif f < 0.38:
                self.replace(self.contour(r))
            elif f < 0.62:
                self.move_some()
            elif f < 0.66 or len(self.held) > most_contours:
                self.drop(self.some())
            elif f < 0.77:
                self.read()
            elif f < 0.80:
                self.ask()
            elif f < 0.804:
                self.clear()
            else:
                self.refuse()

    def end(self):
        self.lines.append("end")
        return self.lines


def cut(points):
    """The points as contours."""
    contours = []
    for x, y, k in points:
        if k & 2 or not contours:
            contours.append([])
        contours[-1].append((x, y, k))
    return contours


# ------------------------------------------------------------------ contours to place
def any_of(units):
    def make(r):
        f = r.randrange(8)
        if f == 0:
            return drawings.contour(r, [(r.randint(-units, units), r.randint(-units, units))])
        if f == 1:
            return straight(r, units)
        points = []
        for _ in range(r.choice([1, 1, 1, 2, 3])):
            points += drawings.any_contour(r, units)[:40]
        return points
    return make


def straight(r, units):
    """A long straight run with points along it, some of them twice, and a way back."""
    points, c = [], r.randint(-units, units)
    for _ in range(r.randint(2, 12)):
        points += [(c, 0)] * r.choice([1, 1, 2])
        c += r.choice([1, 2, 16, 40, units // 3])
    points += [(c, r.choice([0, 1, 50])), (points[0][0], r.choice([50, 90]))]
    if r.random() < 0.5:
        points = [(y, x) for x, y in points]
    return drawings.contour(r, points, r.choice([0, 0, 0.3]))


def small(units):
    """Contours of one to four points."""
    def make(r):
        return drawings.contour(r, r.choice([drawings.polygon, drawings.cluster])(r, units, r.choice([1, 1, 2, 3, 4])))
    return make


def glyph(glyphs):
    """A glyph, or its first contours."""
    def make(r):
        contours = cut(r.choice(glyphs))
        if r.random() < 0.4:
            contours = contours[: r.randint(1, 2)]
        return [p for contour in contours for p in contour]
    return make


# ------------------------------------------------------------------ the days
def glyph_day(r, glyphs):
    units, width, corner, _ = r.choice(glyphs)
    same = [g[3] for g in glyphs if g[0] == units and len(g[3]) <= 60]
    day = Day(r, units, r.choice([0, width]), corner, glyph(same))
    day.work(r.randint(40, 70), r.choice([6, 15, 40]))
    return day


def mixed_day(r, glyphs):
    units, width, corner = drawings.settings(r)
    day = Day(r, units, width, corner, any_of(units))
    day.work(r.randint(45, 80), r.choice([3, 10, 25, 40]))
    return day


def family_day(make, most_contours):
    """A day with drawings of one family."""
    def day_of(r, glyphs):
        units, width, corner = drawings.settings(r)
        day = Day(r, units, width, corner, lambda r: make(r)[3][:60])
        day.work(r.randint(45, 70), r.choice(most_contours))
        return day
    return day_of


stems_day = family_day(drawings.stems, [10, 25, 40])
corners_day = family_day(drawings.corners, [8, 20])
extreme_day = family_day(drawings.extreme, [4, 12])


def crowded_day(r, glyphs):
    """The sheet holds its 128 contours, and the 129th is refused."""
    units, width, corner = drawings.settings(r)
    day = Day(r, units, width, corner, small(units))
    while len(day.held) < MOST_CONTOURS - 3:
        points = []
        for _ in range(min(r.choice([5, 20, 40]), MOST_CONTOURS - 3 - len(day.held))):
            points += day.contour(r)
        day.place(points)
    for _ in range(4):
        four = day.contour(r) + day.contour(r) + day.contour(r) + day.contour(r)
        day.call("place", placed(r, four))
        x, y, k = four[-1]
        day.call("place", written(r, four + r.choice([[(16384, y, 3)], [(x, -16384, 3)], [(x, y, 2)]])))
        day.call("place", with_bad_kind(r, four))
        day.work(4, MOST_CONTOURS)
        while len(day.held) < MOST_CONTOURS:
            day.place(day.contour(r))
        day.call("place", placed(r, day.contour(r)))
        day.call("place", written(r, [(r.choice([0, 16384]), 0, 1)]))
        day.call("place", with_bad_kind(r, [(0, 0, 3)]))
        day.replace(day.contour(r))
        day.read()
        for _ in range(r.choice([1, 2, 3])):
            day.drop(day.some())
    day.work(8, MOST_CONTOURS)
    return day


def long_contour(r, units, n):
    return drawings.contour(r, drawings.polygon(r, units, n), r.choice([0, 0.2]))


def full_day(r, glyphs):
    """The sheet holds its 2,048 points; one more is refused, but `replace` leaves out what it replaces."""
    units, width, corner = drawings.settings(r)
    day = Day(r, units, width, corner, small(units))
    day.place(long_contour(r, units, 700))
    day.place(long_contour(r, units, 600))
    day.place(long_contour(r, units, 747))
    day.call("place", placed(r, long_contour(r, units, 2)))
    day.call("place", with_bad_kind(r, long_contour(r, units, 2)))
    day.place([(5, 5, 3)])
    day.call("place", placed(r, [(1, 1, 3)]))
    day.call("place", written(r, [(20000, 0, 1)]))
    day.call("replace", 3, written(r, [(0, 0, 3), (5, 9, 1)]))
    day.call("replace", 0, with_bad_kind(r, long_contour(r, units, 701)))
    day.call("replace", 4, with_bad_kind(r, [(1, 1, 3)]))
    day.read_both()
    whole = [(x, y, kind & 1) for x, y, kind in long_contour(r, units, 600)]
    day.call("replace", 1, placed(r, whole))
    day.held[1] = whole
    day.move_some()
    day.drop(3)
    day.replace([(9, 9, 3)])
    day.work(10, 8)
    day.call("place", "table " + ";".join(["1,1,1"] * 2049))
    day.call("replace", 0, "table " + ";".join(["1,1,1"] * 2049))
    day.work(6, 8)
    return day


def shifted(points, dx, dy):
    return [(x + dx, y + dy, k) for x, y, k in points]


def stairs_day(r, glyphs):
    """Two stairs and lone points: 1,001 segments are read, the next one is refused by 17, and drops let them be read again."""
    day = Day(r, 16, r.choice([0, 50]), r.randrange(2), small(16))
    day.place(drawings.stairs(500))
    day.place(shifted(drawings.stairs(500), -9000, -9000))
    day.read_both()
    day.place([(7, 7, 3)])
    day.read_both()
    for _ in range(3):
        day.place([(r.randint(-99, 99), 9, r.choice([2, 3]))])
        day.read_both()
        day.move(r.randrange(2), r.randrange(900), r.randint(-9, 9), r.randint(-9, 9))
        day.read_both()
    day.call("read V 1000")
    day.call("place", with_bad_kind(r, [(7, 7, 3)]))
    day.read()
    while len(day.held) > 1:
        day.drop(r.randrange(1, len(day.held)))
        day.read_both()
    day.work(8, 8)
    return day


def comb_day(r, glyphs):
    """2,048 points of stairs and of a comb, more than an axis may have, until one of them is dropped or replaced."""
    day = Day(r, r.choice([16, 300, 500]), 0, r.randrange(2), small(500))
    day.place(drawings.stairs(512))
    day.place(drawings.on(*drawings.comb(r, 256)))
    day.read_both()
    day.call("place", placed(r, [(0, 0, 3)]))
    for _ in range(3):
        day.move(r.randrange(2), r.randrange(1000), r.randint(-300, 300), 300)
        day.read()
    day.replace(drawings.slopes(500))
    day.read_both()
    day.drop(0)
    day.read_both()
    day.place(drawings.slopes(500))
    day.read_both()
    day.clear()
    day.read_both()
    day.work(8, 8)
    return day


PLAN = (
    [glyph_day] * 14 + [mixed_day] * 14 + [stems_day] * 6 + [corners_day] * 5 + [extreme_day] * 4
    + [crowded_day] * 4 + [full_day] * 2 + [stairs_day] + [comb_day]
)


def read_glyph(line):
    data = bytes.fromhex(line)
    points = [(int.from_bytes(data[i:i + 2], "big", signed=True), int.from_bytes(data[i + 2:i + 4], "big", signed=True), data[i + 4]) for i in range(8, len(data), 5)]
    return int.from_bytes(data[3:5], "big"), int.from_bytes(data[5:7], "big"), data[7], points


def main():
    seed, path = sys.argv[1:]
    glyphs = [read_glyph(line) for line in open(path)]
    r = random.Random("days/" + seed)
    plan = PLAN[:]
    r.shuffle(plan)
    for make in plan:
        print("\n".join(make(r, glyphs).end()))


if __name__ == "__main__":
    main()
