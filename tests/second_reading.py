#!/usr/bin/env python3
"""A second reading of the text form, written from document 01 and not from the proved code: what `sofaquery` must print for a text.

    tests/second_reading.py < TEXT          prints the output
    tests/second_reading.py FILE            compares with the stored outputs of FILE: a name, a text and its output in turn, each ended by a `#`

Each operation is rounded to binary32 from binary64, which gives the one rounding that IEEE 754 asks for. Sine, cosine and arctangent are the C library's:
the program answers the bits of the one for x86-64, and where another's last bit differs, a set whose answers hang on it is not for this reading.
"""
import ctypes
import ctypes.util
import math
import re
import struct
import sys

ABSENT = None


class FormError(Exception):
    """The line of this number is malformed or missing."""


class Refused(Exception):
    """Reason and place."""


def f32(x):
    return ctypes.c_float(x).value


LIBRARY = ctypes.CDLL(ctypes.util.find_library("m"))
sine, cosine, arctangent = LIBRARY.sinf, LIBRARY.cosf, LIBRARY.atan2f
for call, count in ((sine, 1), (cosine, 1), (arctangent, 2)):
    call.restype, call.argtypes = ctypes.c_float, [ctypes.c_float] * count


def value(digits):
    return struct.unpack(">f", bytes.fromhex(digits.decode()))[0]


def digits(x):
    return "7fc00000" if x != x else struct.pack(">f", x).hex()


# ---- the text


class Lines:
    """The lines of a text, each ended by a newline; `number` is that of the line read last."""

    def __init__(self, text):
        parts = text.split(b"\n")
        self.lines, self.rest, self.number = parts[:-1], parts[-1], 0

    def more(self):
        return self.number < len(self.lines) or self.rest != b""

    def behind(self, key):
        """What stands behind the key on the next line."""
        self.number += 1
        if self.number > len(self.lines):
            raise FormError(self.number)
        line = self.lines[self.number - 1]
        if not line.startswith(key + b"="):
            raise FormError(self.number)
        return line[len(key) + 1 :]

    def count(self, key, most):
        word = self.behind(key)
        if not re.fullmatch(rb"0|[1-9][0-9]*", word) or len(word) > 4 or int(word) > most:
            raise FormError(self.number)
        return int(word)

    def values(self, key, n):
        word = self.behind(key)
        words = word.split(b",") if n or word else []
        if len(words) != n or not all(re.fullmatch(rb"[0-9a-f]{8}", w) for w in words):
            raise FormError(self.number)
        return [value(w) for w in words]


class Set:
    def __init__(self, lines):
        if lines.behind(b"form") != b"1":
            raise FormError(lines.number)
        self.kind = {b"cartesian": 0, b"spherical": 1}.get(lines.behind(b"kind"), 255)
        self.m = lines.count(b"m", 256)
        self.r = lines.count(b"r", 4096)
        self.n = lines.count(b"n", 4096)
        if self.m * self.r * self.n > 4096:
            raise FormError(lines.number)
        (self.rate,) = lines.values(b"rate", 1)
        (self.astep,) = lines.values(b"astep", 1)
        (self.rstep,) = lines.values(b"rstep", 1)
        count = lines.count(b"delays", 4096)
        self.positions = [lines.values(b"pos", 3) for _ in range(self.m)]
        self.responses = [[lines.values(b"ir", self.n) for _ in range(self.r)] for _ in range(self.m)]
        self.delays = [lines.values(b"delay", 1)[0] for _ in range(count)]


def output(text):
    """All that is printed for a text."""
    lines, blocks = Lines(text), []
    try:
        a_set = Set(lines)
        loaded = Loaded(a_set)
        while lines.more():
            query = lines.values(b"query", 3)
            blocks.append(answer(loaded, query))
    except FormError as e:
        blocks.append(f"form error at line {e}\n")
    except Refused as e:
        blocks.append(refused(e))
    return "".join(blocks).encode()


def refused(e):
    reason, place = e.args
    return f"answer=refused\nreason={reason}\nplace={place}\n"


def answer(loaded, query):
    try:
        points, left, right, delays = loaded.filter(query)
    except Refused as e:
        return refused(e)
    word = "exact" if points is None else "blended"
    return (
        f"answer={word}\nnearest={loaded.find(query)}\npoints={1 if points is None else points}\n"
        f"left={','.join(map(digits, left))}\nright={','.join(map(digits, right))}\n"
        f"ldelay={digits(delays[0])}\nrdelay={digits(delays[1])}\n"
    )


# ---- the load

PI = f32(math.pi)
TO_DEGREES = f32(180 / PI)
TO_RADIANS = f32(PI / 180)


def within(x, low, high):
    return f32(low) <= x <= f32(high)


def judge(s):
    if s.kind == 255:
        raise Refused(1, 255)
    if s.m < 1 or not 2 <= s.r <= 8:
        raise Refused(2, 0)
    for i, p in enumerate(s.positions):
        for axis, v in enumerate(p):
            if s.kind == 0:
                good = within(v, -10000, 10000)
            else:
                good = within(v, 0, 10000) if axis == 2 else within(v, -720, 720)
            if not good:
                raise Refused(4, 3 * i + axis)
    if not within(s.astep, 0.1, 45):
        raise Refused(5, 0)
    if not within(s.rstep, 0.001, 1):
        raise Refused(5, 1)
    if not within(s.rate, 1000, 384000):
        raise Refused(6, 0)


def squared(a, b):
    dx, dy, dz = (f32(p - q) for p, q in zip(a, b))
    return f32(f32(f32(dx * dx) + f32(dy * dy)) + f32(dz * dz))


def distance(a, b):
    return f32(math.sqrt(squared(a, b)))


def radius(p):
    return distance(p, (0.0, 0.0, 0.0))


def to_spherical(p):
    x, y, z = p
    flat = f32(math.sqrt(f32(f32(x * x) + f32(y * y))))
    azimuth = f32(f32(arctangent(y, x) * TO_DEGREES) + 360)
    return f32(math.fmod(azimuth, 360)), f32(arctangent(z, flat) * TO_DEGREES), radius(p)


def to_cartesian(p):
    phi, theta = f32(p[0] * TO_RADIANS), f32(p[1] * TO_RADIANS)
    flat = f32(cosine(theta) * p[2])
    return f32(cosine(phi) * flat), f32(sine(phi) * flat), f32(sine(theta) * p[2])


class Loaded:
    def __init__(self, s):
        judge(s)
        self.set = s
        self.points = [tuple(p) if s.kind == 0 else to_cartesian(p) for p in s.positions]
        radii = [radius(p) for p in self.points]
        self.least, self.greatest = min(radii), max(radii)
        self.children = [[ABSENT, ABSENT] for _ in self.points]
        for number in range(1, s.m):
            self.insert(number)
        self.neighbours = {}

    # the tree: the points strictly less on the axis of the depth go left, the others right

    def insert(self, number):
        node, axis = 0, 0
        while True:
            side = 0 if self.points[number][axis] < self.points[node][axis] else 1
            if self.children[node][side] is ABSENT:
                self.children[node][side] = number
                return
            node, axis = self.children[node][side], (axis + 1) % 3

    def nearest(self, q):
        """The unpruned walk: the nearer side, the node, the farther side; a node wins only if it is strictly nearer. The root is the first best."""
        best = [0, squared(self.points[0], q)]

        def walk(node, axis):
            if node is ABSENT:
                return
            nearer = 0 if f32(q[axis] - self.points[node][axis]) <= 0 else 1
            walk(self.children[node][nearer], (axis + 1) % 3)
            d = squared(self.points[node], q)
            if d < best[1]:
                best[:] = node, d
            walk(self.children[node][1 - nearer], (axis + 1) % 3)

        walk(0, 0)
        return best[0]

    def find(self, q):
        r = radius(q)
        if r > self.greatest:
            q = [f32(v * f32(self.greatest / r)) for v in q]
        elif self.least > r > 0:
            q = [f32(v * f32(self.least / r)) for v in q]
        return self.nearest(q)

    # the neighbours: azimuth +, -, elevation +, -, radius +, -

    def around(self, number):
        if number not in self.neighbours:
            s, place = self.set, to_spherical(self.points[number])
            steps = [(axis, sign * (s.rstep if axis == 2 else s.astep)) for axis in range(3) for sign in (1, -1)]
            self.neighbours[number] = [self.search(number, place, axis, step) for axis, step in steps]
        return self.neighbours[number]

    def search(self, number, place, axis, step):
        cap = 100 if axis == 2 else math.ceil(f32(45 / abs(step)))
        edge = abs(step) if axis == 2 else 0.0
        for s in range(1, cap + 1):
            moved = list(place)
            moved[axis] = f32(place[axis] + f32(step * s))
            moved[1] = min(max(moved[1], -90.0), 90.0)
            moved[2] = max(moved[2], f32(0.001))
            if moved[2] < f32(self.least - edge) or moved[2] > f32(self.greatest + edge):
                return ABSENT
            found = self.find(to_cartesian(moved))
            if found != number:
                return found
        return ABSENT

    # the filter: the count of blended points (None: exact), both responses, both delays in seconds

    def filter(self, q):
        for axis, v in enumerate(q):
            if not math.isfinite(v):
                raise Refused(7, axis)
        nearest = self.find(q)
        near = distance(self.points[nearest], q)
        if near < f32(1e-6):
            return self.exact(nearest)
        weights = [(nearest, f32(1 / near))]
        around = self.around(nearest)
        for pair in (around[0:2], around[2:4], around[4:6]):
            there = [(distance(self.points[k], q), k) for k in pair if k is not ABSENT]
            if there:
                d, k = min(there, key=lambda t: t[0])
                if f32(1e-10) < d < f32(3.4028234663852886e38):
                    weights.append((k, f32(1 / d)))
        total = 0.0
        for _, w in weights:
            total = f32(total + w)
        if total < f32(1e-10):
            return self.exact(nearest)
        return self.blended([(k, f32(w / total)) for k, w in weights])

    def delays_of(self, k):
        """Both delays of a measurement in samples, or None where there are too few."""
        s, count = self.set, len(self.set.delays)
        if count == s.m:
            return s.delays[k], s.delays[k]
        if count >= s.m * s.r:
            return s.delays[k * s.r], s.delays[k * s.r + 1]
        if count >= s.r:
            return s.delays[0], s.delays[1]
        return None

    def exact(self, k):
        s = self.set
        delays = self.delays_of(k) or (0.0, 0.0)
        return None, s.responses[k][0], s.responses[k][1], [f32(d / s.rate) for d in delays]

    def blended(self, points):
        s, ears, delays = self.set, [], []
        for ear in (0, 1):
            samples, delay = [0.0] * s.n, 0.0
            for k, w in points:
                samples = [f32(a + f32(v * w)) for a, v in zip(samples, s.responses[k][ear])]
                if self.delays_of(k):
                    delay = f32(delay + f32(self.delays_of(k)[ear] * w))
            ears.append(samples)
            delays.append(f32(delay / s.rate))
        return len(points), ears[0], ears[1], delays


def main():
    if len(sys.argv) < 2:
        sys.stdout.buffer.write(output(sys.stdin.buffer.read()))
        return 0
    parts = open(sys.argv[1], "rb").read().split(b"#")[:-1]
    cases = list(zip(parts[0::3], parts[1::3], parts[2::3]))
    differ = [name.decode().strip() for name, text, stored in cases if output(text) != stored]
    for name in differ:
        print(f"the second reading differs: {name}")
    print(f"second reading: {len(cases)} texts, {len(differ)} differ")
    return 1 if differ else 0


if __name__ == "__main__":
    sys.exit(main())
