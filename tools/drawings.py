"""Drawings to try the library on: hand-made edges, refused records, and seeded random families.

A drawing is (units, width, rule, points): units per em, standard stem width (0: none), corner rule
(0 Jit, 1 Aot), and points (x, y, kind byte), where the kind is 1 for a point on the curve, plus 2
where it starts a contour. `hexline` writes a drawing as a record, in hexadecimal digits."""
import itertools

LIMIT = 16383
UNITS = [16, 17, 50, 102, 103, 128, 204, 205, 256, 307, 500, 512, 1000, 1024, 2000, 2048, 2816, 4096, 8192, 16383, 16384]


def hexline(drawing):
    units, width, rule, points = drawing
    body = units.to_bytes(2, "big") + width.to_bytes(2, "big") + bytes([rule])
    for x, y, kind in points:
        body += (x & 0xFFFF).to_bytes(2, "big") + (y & 0xFFFF).to_bytes(2, "big") + bytes([kind])
    return (b"\1" + len(body).to_bytes(2, "big") + body).hex()


def clip(c):
    return max(-LIMIT, min(LIMIT, c))


# ------------------------------------------------------------------ edges by hand
def on(*xy):
    """A contour of points on the curve."""
    return [(x, y, 3 if i == 0 else 1) for i, (x, y) in enumerate(xy)]


# Each shows one edge of the rules. `near` is 20 * units / 2048.
EDGES = [
    ("a stem", (1000, 0, 0, on((100, 0), (200, 0), (200, 700), (100, 700)))),
    ("two points: two segments merged, the later of equal heights survives", (1000, 0, 0, on((0, 0), (0, 100)))),
    ("repeated point, near at a contour's last point too", (103, 0, 0, on((0, 0), (0, 0)))),
    ("near is 0: nothing is near, repeated points are ends", (102, 0, 0, on((0, 0), (0, 0), (50, 0), (50, 50)))),
    ("lone point on the curve", (1000, 0, 0, on((5, 7)))),
    ("lone control: round", (1000, 0, 0, [(5, 7, 2)])),
    ("lone point, near is 0: the start is its own end", (16, 0, 0, on((5, 7)))),
    ("all near: the start is the second point, all weak, no directions", (1000, 0, 0, on((0, 0), (3, 0), (3, 3), (0, 3)))),
    ("the start is an end without directions: weak", (205, 0, 1, on((0, 0), (-3, 2), (30, -17)))),
    ("the start is an end without directions: kept by an earlier join", (205, 0, 1, on((0, 0), (-3, 2), (1, -1)))),
    ("the earlier survives a merge and ends where it begins", (16383, 0, 0, [(0, 0, 2), (1, -1, 0), (-7551, -1, 1)])),
    ("all on the line, both directions: the walk begins at the first point", (1000, 0, 0, on((0, 0), (0, 300), (0, 100), (0, 500)))),
    ("the walk begins before the first point", (1000, 0, 0, on((0, 300), (0, 700), (100, 700), (100, 0), (0, 0)))),
    ("three segments, two merges", (1000, 0, 0, on((0, 0), (10, 300), (20, 0), (30, 250), (200, 40)))),
    ("round: a control first gave the least coordinate", (1000, 0, 0, [(0, 0, 2), (0, 50, 1), (0, 100, 1), (200, 100, 1), (200, 0, 1)])),
    ("round: no point on the curve", (1000, 0, 0, [(0, 0, 2), (0, 400, 0), (200, 400, 0), (200, 0, 0)])),
    ("span 71 is units / 14: not round", (1000, 0, 0, [(0, 0, 2), (0, 10, 1), (0, 81, 1), (0, 100, 0), (200, 100, 1), (200, 0, 1)])),
    ("span 70: round", (1000, 0, 0, [(0, 0, 2), (0, 10, 1), (0, 80, 1), (0, 100, 0), (200, 100, 1), (200, 0, 1)])),
    ("a tie: two partners at one position", (1000, 0, 0, on((0, 0), (0, 700), (100, 700), (100, 0)) + on((50, 0), (50, 700), (100, 700), (100, 0)))),
    ("the greatest distance", (12586, 0, 0, on((16383, 16383), (16382, -16383), (16382, -16382), (16382, 16382))
                               + on((0, -1633), (0, -16382), (0, 0), (16383, 16383), (16383, 16382)))),
    ("the corners of the range", (1000, 0, 0, on((-LIMIT, -LIMIT), (LIMIT, -LIMIT), (LIMIT, LIMIT), (-LIMIT, LIMIT)))),
    ("near is 159 at 16,383 units, and 159 is not near", (16383, 0, 1, on((0, 0), (-88, -71)))),
    ("a step back of twice near less one is not taken", (500, 0, 1, on((-473, 181), (-471, 186)))),
    ("a step back of one less is taken", (512, 0, 1, on((0, 0), (3, 5)))),
    ("0 counts as not negative", (50, 0, 0, on((-33, 348), (-33, 348), (-18, 350)))),
    ("a join gives the previous end the next", (17, 0, 0, on((0, 0), (-13, -17), (-13, -17)))),
    ("a join gives the next end the previous", (102, 0, 1, on((0, 0), (-165, 105), (-165, 105)))),
    ("a start that is weak is not looked at again", (2048, 0, 1, on((315, 97), (315, 97), (318, 114)))),
    ("a flat corner joins its neighbours", (16384, 0, 1, on((0, 0), (-2903, 2041), (-2749, 2195)))),
    ("a sixteenth is not below a sixteenth: no flat corner", (205, 0, 1, on((0, 0), (-21, 188), (-10, 342)))),
    ("three eighths drop their fraction", (2816, 0, 0, on((0, 0), (23, -4), (53, 0)))),
    ("the first point that gave a coordinate decides, not the last", (2816, 0, 0, [(0, 0, 3), (-28, 0, 1), (-28, 0, 0)])),
    ("span 7 is 103 / 14: not round", (103, 0, 1, [(0, 0, 3), (485, 0, 0), (489, -61, 1), (489, -68, 1)])),
    ("span 324, a fifteenth of the units: round", (4864, 0, 1, [(0, 0, 2), (0, 371, 1), (0, 47, 1)])),
    ("a survivor keeps its own coordinates", (8192, 0, 0, on((0, 0), (0, -77), (3, 0), (0, 1)))),
    ("a survivor keeps its own roundness", (8116, 0, 1, [(0, 77, 3), (3, 1, 0), (0, 0, 1)])),
    ("overlaps below the least", (6170, 0, 1, on((0, 0), (53, 0), (-4, -4), (-60, 0)))),
    ("overlap 3 makes partners", (1000, 0, 0, on((0, 100), (0, 0), (100, 97), (100, 200)))),
    ("overlap 2 does not", (1000, 0, 0, on((0, 100), (0, 0), (100, 98), (100, 200)))),
    ("a serif through a later segment that is not linked", (4096, 0, 1, on((23, 0), (0, 323), (3, 281), (0, 17)) + on((73, 0), (71, 38), (0, 39), (1, 0)))),
    ("none through an earlier segment that is not linked", (17, 259, 1, on((0, 0), (94, 0), (108, 197), (0, 1)) + on((600, 1), (100, 1), (100, 0), (600, 0)))),
    ("distance 31,999 links", (16, 0, 0, on((-16000, 0), (15999, 0), (15999, 47), (-16000, 47)))),
    ("distance 32,000 does not", (16, 0, 0, on((-16000, 0), (16000, 0), (16000, 47), (-16000, 47)))),
    ("width 100: distance 150 costs 87", (1000, 100, 0, on((0, 0), (150, 0), (150, 700), (0, 700)))),
    ("width 100: distance 100 costs nothing", (1000, 100, 0, on((0, 0), (100, 0), (100, 700), (0, 700)))),
    ("128 contours of one point", (1000, 0, 0, [(i, i, 2 + i % 2) for i in range(128)])),
]


def stairs(count):
    """Steps right and up: `count` segments right, one less up."""
    points = []
    for i in range(count):
        points += [(10 * i, 10 * i), (10 * i + 10, 10 * i)]
    return on(*points)


def slopes(count):
    """Steps up with slopes between: `count` segments up, none right or left."""
    points = []
    for i in range(count):
        points += [(i, 2 * i), (i, 2 * i + 1)]
    return on(*points)


# 1,001 segments are the most that an axis may have; one that opens while 1,001 are held is refused.
LARGE_EDGES = [
    ("1,001 segments Horizontal, 17 Vertical", (16, 0, 0, stairs(1002))),
    ("17 at an opening that a merge would have taken back", (16, 0, 1, slopes(1001) + [(1000, 1001, 1)])),
    ("17 by a lone point", (16, 50, 0, slopes(1001) + on((5, 5)))),
    ("2,048 points, the largest area, 17 on both axes", (1000, 1, 0, on(*[(LIMIT * x, LIMIT * y) for _ in range(512) for x, y in ((-1, -1), (1, -1), (1, 1), (-1, 1))]))),
]


# ------------------------------------------------------------------ refused records
def refused_records():
    """(number, record): every number that a record can be refused by, and which of two comes first."""
    square = on((100, 0), (200, 0), (200, 700), (100, 700))
    good = bytes.fromhex(hexline((1000, 0, 0, square)))

    def changed(**bytes_at):
        data = bytearray(good)
        for place, value in bytes_at.items():
            data[int(place[1:])] = value
        return bytes(data)

    def drawn(points, units=1000, width=0, rule=0):
        return bytes.fromhex(hexline((units, width, rule, points)))

    lone = [(i, 0, 3) for i in range(129)]
    out = [(3, b""), (3, good[:1]), (3, good[:7]), (3, b"\2" + good[1:7])]
    out += [(4, changed(b0=0)), (4, changed(b0=2)), (4, changed(b0=2, b2=24, b7=9))]
    out += [(5, good[:-1]), (5, good + b"\0"), (5, changed(b2=24)), (5, changed(b1=1)), (5, changed(b2=26)),
            (5, bytes([1, 0, 6]) + good[3:9]), (5, changed(b2=24, b7=9))]
    out += [(6, changed(b7=2)), (6, changed(b7=255)), (6, changed(b3=0, b4=0, b5=255, b7=3))]
    out += [(1, drawn(square, units=u)) for u in (0, 15, 16385, 65535)] + [(1, drawn([], units=15, width=65535))]
    out += [(2, drawn(square, width=w)) for w in (16384, 65535)] + [(2, drawn([], width=16384))]
    out += [(12, drawn([])), (12, drawn([], units=16, width=16383, rule=1))]
    out += [(9, drawn(on((0, 0), (100, 0)) + [(100, 700, k)])) for k in (4, 255)]
    out += [(9, drawn([(16384, 0, 7)] + square)), (9, drawn(lone[:128] + [(16384, 0, 6)]))]
    out += [(14, drawn(on((0, 0), p, (100, 700)))) for p in ((16384, 0), (-16384, 0), (0, 16384), (0, -16384), (0, -32768))]
    out += [(14, drawn(on((0, 32767)))), (14, drawn(lone[:128] + [(0, -16384, 3)])), (14, drawn(on((0, 0), (16384, 0)) + [(0, 0, 9)]))]
    out += [(15, drawn(lone)), (15, drawn([(0, 0, 1)] + lone[:128])), (15, drawn(lone + [(0, 0, 8)]))]
    out += [(13, drawn(on(*[(i, 0) for i in range(2048)]) + [(20000, 0, 4)]))]
    return [(number, data.hex()) for number, data in out]


# ------------------------------------------------------------------ random families
def kinds(r, n, p_off):
    return [0 if r.random() < p_off else 1 for _ in range(n)]


def contour(r, xy, p_off=None):
    p_off = r.choice([0, 0, 0.2, 0.5, 1]) if p_off is None else p_off
    k = kinds(r, len(xy), p_off)
    return [(clip(x), clip(y), k[i] | (2 if i == 0 else 0)) for i, (x, y) in enumerate(xy)]


def settings(r):
    units = r.choice(UNITS) if r.random() < 0.8 else r.randint(16, 16384)
    width = r.choice([0, 0, 1, 16383, r.randint(1, 16383), r.randint(1, 400), r.randint(1, 100)])
    return units, width, r.randint(0, 1)


def near(units):
    return 20 * units // 2048


def polygon(r, units, n):
    """A walk along the axes with noise, closed by the last step whatever it is."""
    x, y = r.randint(-500, 500), r.randint(-500, 500)
    big = r.choice([units, units // 2 + 1, 4 * near(units) + 4, 30])
    noise = r.choice([0, 0, 1, 2, near(units), max(1, big // 14)])
    out, horizontal = [], r.random() < 0.5
    for _ in range(n):
        out.append((x + r.randint(-noise, noise), y + r.randint(-noise, noise)))
        s = r.randint(-big, big)
        if horizontal:
            x = clip(x + s)
        else:
            y = clip(y + s)
        if r.random() < 0.8:
            horizontal = not horizontal
    return out


def cluster(r, units, n):
    """Steps about the near limit N and 2N-1, sometimes a long one, sometimes a repeated point."""
    N, x, y, out = near(units), 0, 0, []
    sizes = [0, 1, 2, N - 1, N, N + 1, 2 * N - 2, 2 * N - 1, 2 * N, 2 * N + 1, 14, 15, 16, 28, 29, 30]
    for _ in range(n):
        out.append((x, y))
        t = abs(r.choice(sizes)) if r.random() < 0.85 else r.randint(0, units)
        a = r.choice([0, 0, t, t, r.randint(0, t)])
        x = clip(x + r.choice([-1, 1]) * a)
        y = clip(y + r.choice([-1, 1]) * (t - a))
    return out


def bends(r, units, n):
    """Long steps that bend a little, back and forth: corners that a rule may find flat."""
    x, y, out = 0, 0, []
    along, long = r.random() < 0.5, r.choice([30, 100, 300, units])
    way = 1
    for _ in range(n):
        out.append((x, y))
        step = r.randint(long // 2, long)
        off = r.choice([-1, 1]) * r.randint(step // 15, step // r.choice([4, 8, 12]))
        if r.random() < 0.25:
            way = -way
        dx, dy = (way * step, off) if along else (off, way * step)
        x, y = clip(x + dx), clip(y + dy)
    return out


def uniform(r, n, span):
    return [(r.randint(-span, span), r.randint(-span, span)) for _ in range(n)]


def grid(r, n, values):
    return [(r.choice(values), r.choice(values)) for _ in range(n)]


def spikes(r, n):
    x, y, out = 0, 0, []
    for _ in range(n):
        out.append((x, y))
        s = r.choice([-1, 1]) * r.choice([20, 100, 300, 700, 15, 1000])
        if r.random() < 0.75:
            y = clip(y + s)
            x = clip(x + r.choice([0, 0, 0, 1, -1, 2]))
        else:
            x = clip(x + s)
            y = clip(y + r.choice([0, 0, 1, -1]))
    return out


def staircase(r, steps):
    size = r.choice([4, 10, 15, 16, 31])
    out, x, y = [], -LIMIT + 100, -LIMIT + 100
    for _ in range(steps):
        out.append((x, y))
        x = clip(x + size)
        out.append((x, y))
        y = clip(y + size)
    return out


def comb(r, teeth):
    out, x = [], -LIMIT
    w, g, h = r.randint(5, 7), r.randint(5, 7), r.randint(50, 3000)
    for _ in range(teeth):
        out += [(x, 0), (x, h), (x + w, h), (x + w, 0)]
        x += w + g
    return [(clip(a), clip(b)) for a, b in out]


def size(r):
    return r.choice([1, 2, 2, 3, 3, 4, 4, 5, 6, 7, 8, 10, 12, 16, 20, 30, 50])


def with_controls(r, xy):
    """A control near the middle of some sides."""
    points = []
    for i, p in enumerate(xy):
        q = xy[(i + 1) % len(xy)]
        points.append((*p, 1))
        if r.random() < 0.6:
            points.append(((p[0] + q[0]) // 2 + r.randint(-9, 9), (p[1] + q[1]) // 2 + r.randint(-9, 9), 0))
    return [(clip(x), clip(y), k | (2 if i == 0 else 0)) for i, (x, y, k) in enumerate(points)]


GRIDS = [[0, 1, 2], [0, 14, 15, 1], [0, 100, 107, 93], [-LIMIT, LIMIT], [-LIMIT, 0, LIMIT], [0, 1, 30, 700]]


def any_contour(r, units):
    f = r.randrange(10)
    n = size(r)
    if f <= 2:
        return contour(r, polygon(r, units, n))
    if f <= 4:
        return contour(r, cluster(r, units, n))
    if f == 5:
        return contour(r, uniform(r, n, r.choice([3, 10, 40, units, LIMIT])))
    if f == 6:
        return contour(r, grid(r, n, r.choice(GRIDS)))
    if f == 7:
        return contour(r, spikes(r, n))
    if f == 8:
        xy = polygon(r, units, max(1, n // 2))
        return contour(r, [p for p in xy for _ in range(r.choice([1, 1, 2, 3]))])
    return with_controls(r, polygon(r, units, n))


def mixed(r):
    """One to five contours of any kind."""
    units, width, rule = settings(r)
    points = []
    for _ in range(r.choice([1, 1, 1, 2, 3, 5])):
        points += any_contour(r, units)
    return units, width, rule, points[:2048]


def stems(r):
    """Many rectangles on few positions: ties, serifs, overlaps about the least one."""
    units, width, rule = settings(r)
    least = max(1, 8 * units // 2048)
    xs = [0, 50, 100, 140, 100 + r.randint(0, 5), 300, 600]
    ys = [0, least - 1, least, least + 1, 200, 200 + least, 700]
    points = []
    for _ in range(r.randint(1, 8)):
        x0, x1, y0, y1 = r.choice(xs), r.choice(xs), r.choice(ys), r.choice(ys)
        xy = [(x0, y0), (x1, y0), (x1, y1), (x0, y1)]
        if r.random() < 0.5:
            xy.reverse()
        k = r.randrange(4)
        points += contour(r, xy[k:] + xy[:k], r.choice([0, 0, 0.3]))
    return units, width, rule, points


def corners(r):
    """Contours whose points the corner rule has to judge."""
    units, width, rule = settings(r)
    points = []
    for _ in range(r.choice([1, 1, 2, 3])):
        points += contour(r, bends(r, units, r.randint(3, 12)), r.choice([0, 0, 0.3]))
    return units, width, rule, points


def extreme(r):
    """Points at and next to the ends of the range."""
    units, width, rule = settings(r)
    values = [-LIMIT, LIMIT, -LIMIT + 1, LIMIT - 1, 0, r.randint(-LIMIT, LIMIT)]
    points = []
    for _ in range(r.randint(1, 3)):
        points += contour(r, grid(r, size(r), values))
    return units, width, rule, points


def contours(r):
    """Many small contours, up to 128."""
    units, width, rule = settings(r)
    points = []
    for _ in range(r.choice([20, 64, 127, 128])):
        n = r.choice([1, 1, 2, 3, 4])
        points += contour(r, r.choice([polygon, cluster])(r, units, n))
    return units, width, rule, points


def large(r):
    """Hundreds of points, and about as many segments as an axis may have."""
    units, width, rule = settings(r)
    f = r.randrange(5)
    if f == 0:
        xy = staircase(r, r.choice([990, 998, 999, 1000, 1001, 1002, 1003, 1010, 1023, 1024]))
        lone = r.choice([0, 0, 1, 2, 5])
        points = contour(r, xy[:2048 - lone], 0)
        points += [(r.randint(-9, 9), 0, r.choice([2, 3])) for _ in range(lone)]
        return r.choice([16, 102, 205, 400]), width, rule, points
    if f == 1:
        return units, width, rule, contour(r, comb(r, r.choice([400, 498, 499, 500, 501, 502, 511, 512])))
    n = r.choice([200, 700, 2047, 2048])
    xy = uniform(r, n, LIMIT) if f == 4 else [polygon, cluster][f % 2](r, units, n)
    return units, width, rule, contour(r, xy)


FAMILIES = {"mixed": mixed, "stems": stems, "corners": corners, "extreme": extreme, "contours": contours, "large": large}


# ------------------------------------------------------------------ all small drawings
def tiny(units, width, rule, values, n, first_fixed, both_kinds):
    """Every contour of n points on values x values (the first at (0, 0) if first_fixed)."""
    cells = list(itertools.product(values, values))
    firsts = [(0, 0)] if first_fixed else cells
    for first in firsts:
        for rest in itertools.product(cells, repeat=n - 1):
            for ks in itertools.product((1, 0), repeat=n) if both_kinds else [(1,) * n]:
                points = [(x, y, k | (2 if i == 0 else 0)) for i, ((x, y), k) in enumerate(zip((first, *rest), ks))]
                yield units, width, rule, points


def both_rules(unit_list, **rest):
    return [dict(units=u, rule=c, **rest) for u in unit_list for c in (0, 1)]


TINY = {
    "1": both_rules(UNITS, width=0, values=[0, 5, -LIMIT, LIMIT], n=1, first_fixed=False, both_kinds=True),
    "2": both_rules(UNITS, width=0, values=[-15, -9, -2, -1, 0, 1, 2, 3, 8, 9, 14, 15, 16, 17, 18, 100], n=2, first_fixed=True, both_kinds=True),
    "3": both_rules((16, 103, 205, 308), width=0, values=[-3, -2, -1, 0, 1, 2, 3], n=3, first_fixed=True, both_kinds=True),
    "3wide": both_rules((1000,), width=50, values=[-17, -15, -9, -1, 0, 1, 8, 16, 18], n=3, first_fixed=True, both_kinds=True),
    "4": [dict(units=u, width=0, rule=c, values=[-2, -1, 0, 1, 2], n=4, first_fixed=True, both_kinds=True) for u, c in ((205, 0), (103, 1), (16, 0))],
    "4lines": both_rules((16, 205, 1000, 1700), width=20, values=[0, 1, 15, 30], n=4, first_fixed=True, both_kinds=False),
    "5lines": both_rules((16, 205, 900), width=0, values=[0, 1, 16], n=5, first_fixed=True, both_kinds=False),
}
