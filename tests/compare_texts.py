#!/usr/bin/env python3
"""tests/compare_texts.py COUNT PROGRAM..: makes COUNT texts, the same ones each time, well formed and not, and compares what the program prints for each with
the second reading. Sets have their measurements at random places, so that no neighbour hangs on the last bit of an angle."""
import random
import subprocess
import sys

sys.dont_write_bytecode = True
from second_reading import digits, f32, output  # noqa: E402

ODD = ["7fc00000", "7f800001", "ffc00000", "7f800000", "ff800000", "80000000", "00000000", "00000001", "7f7fffff", "461c4000", "461c4001", "c61c4001"]
STEPS = ["3f000000", "3dcccccd", "3dcccccc", "42340000", "42340001", "40a00000", "41200000", "00000000", "bf000000", "7fc00000"]
RADIUS_STEPS = ["3c23d70a", "3a83126f", "3a83126e", "3f800000", "3f800001", "3dcccccd", "7fc00000"]
RATES = ["473b8000", "472c4400", "447a0000", "4479ffff", "48bb8000", "48bb8001", "7f800000"]


class Maker:
    def __init__(self, seed):
        self.rng = random.Random(seed)

    def mostly(self, good, others, share=0.9):
        return good if self.rng.random() < share else self.rng.choice(others)

    def number(self, low, high):
        return self.mostly(digits(f32(self.rng.uniform(low, high))), ODD, 0.995)

    def position(self, kind):
        if kind == "spherical":
            return [self.number(-720, 720), self.number(-100, 100), self.number(0.5, 2)]
        return [self.number(-2, 2) for _ in range(3)]

    def query(self, positions):
        if self.rng.random() < 0.2 and positions:
            return self.rng.choice(positions)
        size = self.rng.choice([0.1, 1, 2, 10, 1e4, 1e30])
        return [self.number(-size, size) for _ in range(3)]

    def lines(self):
        rng = self.rng
        kind = self.mostly(rng.choice(["cartesian", "spherical"]), ["", "other", "Cartesian"], 0.95)
        m = rng.choice([0, 1, 1, 2, 2, 3, 4, 5, 8, 13])
        r = self.mostly(rng.choice([2, 2, 2, 3, 8]), [0, 1, 9], 0.95)
        n = rng.choice([0, 1, 1, 2, 3, 7])
        delays = rng.choice([0, 1, 2, m, m, m * r, m * r + 1, r])
        out = ["form=1", f"kind={kind}", f"m={m}", f"r={r}", f"n={n}", "rate=" + self.mostly("473b8000", RATES), "astep=" + self.mostly("40a00000", STEPS)]
        out += ["rstep=" + self.mostly("3dcccccd", RADIUS_STEPS), f"delays={delays}"]
        positions = [self.position(kind) for _ in range(m)]
        out += ["pos=" + ",".join(p) for p in positions]
        out += ["ir=" + ",".join(self.number(-1, 1) for _ in range(n)) for _ in range(m * r)]
        out += ["delay=" + self.number(0, 100) for _ in range(delays)]
        places = positions if kind == "cartesian" else []
        return out + ["query=" + ",".join(self.query(places)) for _ in range(rng.choice([0, 1, 2, 5, 9]))]

    def spoilt(self, text):
        """The text with one thing changed."""
        rng, at = self.rng, self.rng.randrange(len(text))
        what = rng.randrange(6)
        if what == 0:
            return text[:at]
        if what == 1:
            return text[:at] + bytes([rng.choice(b"0129afAF,=\n\r -#\x00\xff")]) + text[at + 1 :]
        if what == 2:
            return text[:at] + text[at + 1 :]
        if what == 3:
            return text[:at] + bytes([rng.choice(b"0fm,=\n ")]) + text[at:]
        lines = text.splitlines(keepends=True)
        k = rng.randrange(len(lines))
        return b"".join(lines[:k] + lines[k + 1 :] if what == 4 else lines[:k] + [lines[k]] + lines[k:])

    def text(self):
        text = ("\n".join(self.lines()) + "\n").encode()
        return self.spoilt(text) if self.rng.random() < 0.4 else text


def main():
    count, program = int(sys.argv[1]), sys.argv[2:]
    maker, blocks, errors, refusals, differ = Maker(1), 0, 0, 0, 0
    for number in range(count):
        text = maker.text()
        want = output(text)
        got = subprocess.run(program, input=text, stdout=subprocess.PIPE).stdout
        blocks += want.count(b"answer=exact") + want.count(b"answer=blended")
        refusals += want.count(b"answer=refused")
        errors += want.count(b"form error")
        if got != want:
            differ += 1
            print(f"text {number} differs:\n{text.decode(errors='replace')}\nwanted:\n{want.decode()}\ngot:\n{got.decode(errors='replace')}")
    print(f"{count} texts: {blocks} answers, {refusals} refusals, {errors} form errors in the second reading; {differ} differ")
    return 1 if differ else 0


if __name__ == "__main__":
    sys.exit(main())
