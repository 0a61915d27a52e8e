#!/usr/bin/env python3
"""The summary of the large work of a number, worked out from docs/FORMATS.md alone: no put is run.

usage: large_work.py NUMBER
"""
import sys


class Generator:
    def __init__(self, state):
        self.state = state

    def draw(self):
        self.state = (self.state * 6364136223846793005 + 1442695040888963407) % 2**64
        return self.state >> 33


def puts(number):
    """Each put of the work: its session, its key, and what it brings."""
    generator = Generator(number)
    for session in range(1, 9):
        for command in range(400):
            if session % 3 == 2 and command % 20 in (0, 19):
                continue  # `begin` and `commit`
            first, second, third = generator.draw(), generator.draw(), generator.draw()
            if first % 4 != 3:
                yield session, second % 32 + 1, third


def value(key, draws):
    """What the puts on a key merge to."""
    kind = (key - 1) % 4
    if not draws:
        return "none"
    if kind == 0:
        return str(max(draw % 1000000 for draw in draws))
    if kind == 1:
        return "on"
    if kind == 2:
        return "{" + ",".join(sorted({f"w{draw % 50}" for draw in draws})) + "}"
    fields = {}
    for draw in draws:
        field, count = f"f{draw % 10}", draw // 10 % 1000
        fields[field] = max(count, fields.get(field, 0))
    return "{" + ",".join(f"{field}={count}" for field, count in sorted(fields.items())) + "}"


def main():
    number = int(sys.argv[1])
    made = list(puts(number))
    print(f"anna big {number}\ncommands 3200\nputs {len(made)}")
    for key in range(1, 33):
        on_key = [(session, draw) for session, of, draw in made if of == key]
        counts = [(session, sum(by == session for by, _ in on_key)) for session in range(1, 9)]
        clock = ",".join(f"s{session}:{count}" for session, count in counts if count) or "-"
        print(f"k{key} clock {clock} value {value(key, [draw for _, draw in on_key])}")
    print("end")


if __name__ == "__main__":
    main()
