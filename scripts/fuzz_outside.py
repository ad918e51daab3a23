#!/usr/bin/env python3
"""Random scenarios for the outside: `fuzz_outside.py SEED COUNT`. Same seed, same text."""
import random
import sys

rng = random.Random(int(sys.argv[1]))
NAMES = ["a", "b", "c", "ab", "%C3%A9", "x" * 20]
TEXTS = ["/", "%", ".", "..", "/..", "//a/", "a/./b", "../a/b", "/a%00", "y" * 64, "y" * 65]


def path():
    """Any text, for a question."""
    if rng.random() < 0.05:
        return rng.choice(TEXTS + ["/" + "/".join(rng.choice(NAMES) for _ in range(9))])
    return place(rng.choice([0, 1, 1, 2, 2, 3, 4, 8]))


def place(depth=None):
    """A path, for a line that sets the outside up: a wrong one would end the scenario."""
    names = [rng.choice(NAMES[:3]) for _ in range(rng.choice([1, 1, 2, 2, 3]) if depth is None else depth)]
    if names and rng.random() < 0.05:
        names[-1] = rng.choice(NAMES)
    return "/" + "/".join(names)


def cause():
    return rng.choice(["not-found", "number:13", "number:4294967295"])


def mark():
    return rng.choice(["follow", "nofollow"])


def answer():
    a = rng.choice(["done", "path-not-found", "watch-not-found", "max-files", "io:24", "other"])
    return f"answer {a}" + (f" {place()}" if a != "done" and rng.random() < 0.4 else "")


def scenario(n):
    lines = [f"scenario s{n}"]
    say = lines.append
    say(rng.choice(["board 1", "board 2", "board 3", "board 7", "roll", "roll"]))
    sheet = rng.random() < 0.3
    roll = lines[-1] == "roll"
    if sheet:
        say("sheet")
    for _ in range(rng.randrange(5, 60)):
        pick = rng.random()
        if pick < 0.35 and not sheet:
            say(rng.choice([f"dir {place()}", f"dir {place()}", f"file {place()}", f"link {place()} /{rng.choice(NAMES)}", f"link {place()} {place()}"]))
        elif pick < 0.35:
            say(rng.choice([
                f"class {place()} follow " + rng.choice(["directory " + place(), "other", cause()]),
                f"class {place()} nofollow " + rng.choice(["directory " + place(), "symlink", "other", cause()]),
                f"list {place()} " + " ".join(rng.choice(["=" + rng.choice(NAMES), "!" + cause()]) for _ in range(rng.randrange(1, 6))),
                f"unlist {place()} {cause()}",
            ]))
        elif pick < 0.40:
            say(f"strike {place()}")
        elif pick < 0.46 and roll:
            say(answer())
        elif pick < 0.50:
            say(rng.choice([f"deny {rng.choice(NAMES)}", f"balk {rng.choice(NAMES)} {rng.randrange(65536)}", "filter"]))
        elif pick < 0.66:
            say(f"look {path()} {mark()}")
        elif pick < 0.76:
            say(f"items {path()}")
        elif pick < 0.82:
            say(f"verdict {path()}")
        elif pick < 0.96:
            say(rng.choice(["watch ", "watch ", "unwatch "]) + path())
        else:
            say("fill" if not roll else f"look {path()} follow")
    return lines


out = []
for n in range(int(sys.argv[2])):
    out += scenario(n)
print("\n".join(out))
