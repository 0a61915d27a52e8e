#!/usr/bin/env python3
"""Runs the program on generated scripts, of both versions, all levels and kinds and with 1 to 8 workers, in version 2 with sessions that come after
others, every third with scrambled gossip, and has each report judged.

usage: judge_many.py [COUNT [SEED]]   so many scripts, 300 where none is given, from this seed on
"""
import pathlib
import random
import subprocess
import sys

TOP = pathlib.Path(__file__).resolve().parent.parent
KINDS = {1: ["max", "or", "set", "map", "last", "versions"]}
KINDS[2] = [*KINDS[1], "counter", "orset"]


def payload(draw, kind):
    """What a put brings to a key of this kind."""
    number = draw.randrange(1000)
    word = f"w{draw.randrange(40)}"
    if kind == "counter":
        return f"{draw.choice(['add', 'sub'])} {number}"
    if kind == "orset":
        return f"{draw.choice(['insert', 'insert', 'remove'])} w{draw.randrange(4)}"
    return {"max": number, "or": "on", "map": f"{word} {number}"}.get(kind, word)


def commands(draw, level, keys, sessions):
    """The command lines of a session; `keys` has of each key its kind and the workers that it is pinned to."""
    begun = False
    for _ in range(draw.randrange(30)):
        key = draw.choice(list(keys))
        kind, pins = keys[key]
        turn = draw.random()
        if turn < 0.45:
            yield f"put {key} {payload(draw, kind)}"
        elif turn < 0.75:
            named = f" {draw.choice(pins)}" if pins and level != "causal" and draw.random() < 0.5 else ""
            yield f"get {key}{named}"
        elif level == "causal" and turn < 0.9:
            yield f"await {key} {draw.choice(sessions)} {draw.randrange(4)}"
        elif level == "committed":
            yield draw.choice(["commit", "abort"]) if begun else "begin"
            begun = not begun
    if begun:
        yield "commit"


def place(draw, version, workers, pins):
    """What the line of a key says of its workers."""
    if pins:
        return " at " + " ".join(map(str, pins))
    if version == 2 and draw.random() < 0.7:
        return f" factor {draw.randrange(1, workers + 1)}"
    return ""


def script(draw):
    """A script."""
    workers = draw.randrange(1, 9)
    version = draw.randrange(1, 3)
    lines = [f"anna {version}", f"workers {workers}", f"factor {draw.randrange(1, workers + 1)}", f"round {draw.randrange(1, 9)}"]
    keys = {}
    for number in range(draw.randrange(1, 12)):
        kind = draw.choice(KINDS[version])
        pins = draw.sample(range(1, workers + 1), draw.randrange(workers + 1))
        keys[f"k{number}"] = kind, pins
        lines.append(f"key k{number} {kind}{place(draw, version, workers, pins)}")
    sessions = [f"s{number}" for number in range(draw.randrange(17))]
    causal = []
    for session in sessions:
        level = draw.choice(["eventual", "committed", "causal", "causal"])
        after = f" after {draw.choice(causal)}" if version == 2 and level == "causal" and causal and draw.random() < 0.6 else ""
        lines.append(f"session {session} {level}{after}")
        lines.extend(commands(draw, level, keys, sessions))
        if level == "causal":
            causal.append(session)
    return "\n".join([*lines, "end", ""]).encode()


def main():
    count = int(sys.argv[1]) if len(sys.argv) > 1 else 300
    seed = int(sys.argv[2]) if len(sys.argv) > 2 else 1
    program = [str(TOP / "anna")]
    subprocess.run([*program, "run"], input=(TOP / "examples" / "first.anna").read_bytes(), stdout=subprocess.DEVNULL, check=True)
    asked = 0
    for number in range(seed, seed + count):
        text = script(random.Random(number))
        asked += text.count(b"\n")
        words = ["run"] if number % 3 else ["run", "--scramble", str(number)]
        run = subprocess.run([*program, *words], input=text, capture_output=True)
        check = subprocess.run([*program, "check"], input=text + run.stdout, capture_output=True)
        if run.returncode != 0 or check.stdout != b"legal\n":
            sys.stdout.buffer.write(text)
            sys.exit(f"seed {number}: run ended with {run.returncode}, and its report is {check.stdout.decode().strip()}")
    print(f"{count} scripts of {asked} lines in all: each report is legal")


if __name__ == "__main__":
    main()
