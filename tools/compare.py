#!/usr/bin/env python3
"""Compares the library with the original Rust on many drawings, value by value.

  compare.py OWN RUST tiny NAME                  every drawing of a list TINY of drawings.py
  compare.py OWN RUST random FAMILY COUNT SEED   seeded drawings of a family
  compare.py OWN RUST file PATH                  the records of a file, hexadecimal digits on each line
  compare.py CARD RUST cards COUNT SEED PATH..   what `stemcard` prints of the records of files, and of
                                                 COUNT damaged copies of them

OWN is the program `replay`, CARD the program `stemcard`, RUST a program that prints what the original
finds (docs/VECTORS.md). Prints one line of counts, and of what differs the smallest input."""
import itertools
import random
import re
import subprocess
import sys

import drawings

BATCH = 2000
MOST_INPUT = 16384


def texts(command, lines):
    """What a program prints of each record, without the height that is adjusted later."""
    run = subprocess.run(command, input="\n".join(lines) + "\n", capture_output=True, text=True)
    out = re.sub(r" adjusted -?\d+$", "", run.stdout, flags=re.M).split("end\n")[:-1]
    if run.returncode != 0 or len(out) != len(lines):
        sys.exit("%s: status %d after %d of %d records: %s" % (command, run.returncode, len(out), len(lines), run.stderr[-400:]))
    return out


def batches(items):
    items = iter(items)
    while batch := list(itertools.islice(items, BATCH)):
        yield batch


# ------------------------------------------------------------------ values
def random_drawings(family, count, seed):
    r = random.Random("%s/%s" % (family, seed))
    return (drawings.FAMILIES[family](r) for _ in range(count))


def flipped(line):
    """The same drawing under the other corner rule."""
    return line[:14] + "%02x" % (1 - int(line[14:16], 16)) + line[16:]


def shrunk(own, rust, line):
    """Points are left out for as long as the two still differ."""
    def differs(line):
        return texts([own, "--print"], [line]) != texts([rust], [line])

    again = True
    while again:
        again = False
        data = bytes.fromhex(line)
        for i in range(8, len(data), 5):
            rest = bytearray(data[:i] + data[i + 5:])
            if len(rest) == 8:
                continue
            if data[i + 4] & 2 and i < len(rest):
                rest[i + 4] |= 2
            rest[1:3] = (len(rest) - 3).to_bytes(2, "big")
            if differs(rest.hex()):
                line, again = rest.hex(), True
                break
    return line


def shows(text):
    marks = dict(link=r" link \d", serif=r" serif \d", round=r" r$", near=r" N[W-] in ", refused17=r" answer 17$", lone=r" built \d+ none ")
    return [name for name, pattern in marks.items() if re.search(pattern, text, flags=re.M)]


def compare_values(own, rust, lines):
    count, different, smallest = 0, 0, None
    shown = {}
    for batch in batches(lines):
        own_texts, rust_texts = texts([own, "--print"], batch), texts([rust], batch)
        other_rule = texts([rust], [flipped(line) for line in batch])
        for line, mine, theirs, other in zip(batch, own_texts, rust_texts, other_rule):
            count += 1
            for name in shows(theirs) + ["rule decides"] * (other != theirs):
                shown[name] = shown.get(name, 0) + 1
            if mine != theirs:
                different += 1
                if smallest is None or len(line) < len(smallest):
                    smallest = line
    print("%s: %d records, %d differences; %s" % (
        " ".join(sys.argv[3:]), count, different, ", ".join("%s %d" % pair for pair in sorted(shown.items()))), flush=True)
    if smallest:
        print("  smallest:", shrunk(own, rust, smallest))


# ------------------------------------------------------------------ cards
def refusal(data):
    """The number that bytes are refused by before any segment is built, or None."""
    if len(data) < 8:
        return 3
    if data[0] != 1:
        return 4
    if int.from_bytes(data[1:3], "big") != len(data) - 3 or (len(data) - 8) % 5:
        return 5
    if data[7] > 1:
        return 6
    if not 16 <= int.from_bytes(data[3:5], "big") <= 16384:
        return 1
    if int.from_bytes(data[5:7], "big") > 16383:
        return 2
    points = [data[i:i + 5] for i in range(8, len(data), 5)]
    if not points:
        return 12
    if len(points) > 2048:
        return 13
    contours = 0
    for i, point in enumerate(points):
        if point[4] > 3:
            return 9
        if any(abs(int.from_bytes(point[k:k + 2], "big", signed=True)) > 16383 for k in (0, 2)):
            return 14
        if i == 0 or point[4] & 2:
            contours += 1
            if contours > 128:
                return 15
    return None


def card(text):
    """The card of a record, made of what the Rust finds in it."""
    words = [line.split() for line in text.splitlines()]
    if any(w[1] == "answer" and w[2] == "17" for w in words):
        return "refused 17\n"
    out, linked = ["points %s contours %s area %s" % (words[0][2], words[0][4], words[0][8])], 0
    lines = {(w[0], w[2]): w for w in words if w[1] == "linked"}
    for w in words:
        if w[1] == "built":
            other = lines[w[0], w[2]]
            measures = (w[9], w[11], w[13], w[15], w[17], w[18])
            out.append(" ".join((w[0], w[2], w[3], *measures, other[4], other[6], other[8])))
            linked += other[6] != "-"
    return "\n".join(out + ["stems %d" % (linked // 2)]) + "\n"


def damaged(r, data):
    """A record with something wrong in it, or not."""
    data = bytearray(data)
    for _ in range(r.choice([0, 1, 1, 1, 2, 3])):
        if data:
            data[r.randrange(len(data)) if r.random() < 0.7 else r.randrange(min(8, len(data)))] = r.choice([0, 1, 2, 3, 4, 255, r.randrange(256)])
    f = r.randrange(8)
    if f == 0:
        del data[r.randrange(len(data) + 1):]
    elif f == 1:
        data += bytes(r.randrange(256) for _ in range(r.choice([1, 5, 10])))
    elif f == 2:
        data += bytes(r.choice([1, 1, 1, 3, 0]) for _ in range(5 * r.choice([1, 50, 128, 2100, 3400])))
    elif f == 3:
        data = data[:8 + 5 * r.randrange(1 + max(0, len(data) - 8) // 5)]
    if len(data) >= 3 and r.random() < 0.6:
        data[1:3] = min(65535, len(data) - 3).to_bytes(2, "big")
    return bytes(data)


def compare_cards(program, rust, count, seed, paths):
    whole = [bytes.fromhex(line) for path in paths for line in open(path)]
    r = random.Random("cards/%s" % seed)
    inputs = whole + [b"", bytes(MOST_INPUT + 1)] + [damaged(r, r.choice(whole)) for _ in range(count)]
    taken = [data[:MOST_INPUT] for data in inputs]
    good = [i for i, data in enumerate(taken) if refusal(data) is None]
    answer = dict(zip(good, texts([rust], [taken[i].hex() for i in good])))
    different, told = [], {}
    for i, data in enumerate(inputs):
        expected = card(answer[i]) if i in answer else "refused %d\n" % refusal(taken[i])
        key = expected.strip() if expected.startswith("refused") else "cards"
        told[key] = told.get(key, 0) + 1
        run = subprocess.run([program], input=data, capture_output=True)
        if run.returncode != 0 or run.stdout.decode() != expected:
            different.append(data)
    print("cards %s: %d inputs, %d differences; %s" % (seed, len(inputs), len(different), ", ".join("%s: %d" % pair for pair in sorted(told.items()))))
    if different:
        print("  smallest:", min(different, key=len).hex())


def main():
    own, rust, mode, *words = sys.argv[1:]
    if mode == "cards":
        return compare_cards(own, rust, int(words[0]), words[1], words[2:])
    if mode == "tiny":
        lines = map(drawings.hexline, itertools.chain.from_iterable(drawings.tiny(**arguments) for arguments in drawings.TINY[words[0]]))
    elif mode == "random":
        lines = map(drawings.hexline, random_drawings(words[0], int(words[1]), words[2]))
    else:
        lines = [line.strip() for line in open(words[0])]
    compare_values(own, rust, lines)


if __name__ == "__main__":
    main()
