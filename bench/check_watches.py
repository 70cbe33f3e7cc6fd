#!/usr/bin/env python3
"""Generates watch files, and judges what the program tells of them against the rules.

check_watches.py [--program PATH] [--files N] [--lines N] [--seed N]

By one worker the whole text is computed. By several it is judged by what holds of every schedule: each record has one reply, each
worker's in file order; there is an order of all publishes and reads, each worker's in its own, in which they are those of one pair of
numbers that starts as (0, 0) and ends as the last line says; and at rest nothing has leaked. Prints how many files were judged, and
each that is wrong; the status is 1 where one is.
"""
import argparse
import random
import subprocess
import sys

VALUES = ((0, 1, 2), range(1000), (0, 1, 4294967294, 4294967295))


def records(rng, count):
    values = rng.choice(VALUES)
    verbs = rng.choice((("left", "right", "both", "see"), ("left", "right", "see"), ("both", "see")))
    made = []
    for _ in range(count):
        verb = rng.choice(verbs)
        made.append((verb, *(rng.choice(values) for _ in range({"see": 0, "both": 2}.get(verb, 1)))))
    return made


def file_of(made):
    return "".join(",".join(map(str, record)) + "\n" for record in made).encode()


def after(record, pair):
    """Both parts once the record's publish is done, or as they are where it reads."""
    verb, *values = record
    left = values[0] if verb in ("left", "both") else pair[0]
    right = values[-1] if verb in ("right", "both") else pair[1]
    return left, right


def alone(made):
    """The text by one worker, with rows enough."""
    pair, lines = (0, 0), ["watch"]
    for line, record in enumerate(made):
        pair = after(record, pair)
        word = "saw" if record[0] == "see" else "set"
        lines.append(f"worker 1 line {line} {word} {pair[0]} {pair[1]}")
    return [*lines, f"now {pair[0]} {pair[1]}"]


class Wrong(Exception):
    pass


def ask(holds, what):
    if not holds:
        raise Wrong(what)


def read_replies(made, workers, lines):
    """Of each worker, in order, the record of each of its replies with the pair that it tells, or None where it was refused."""
    asked = sorted((1 + line % workers, line) for line in range(len(made)))
    ask(len(lines) == len(asked), "as many replies as records")
    told = [[] for _ in range(workers)]
    for (worker, line), words in zip(asked, (line.split(" ") for line in lines)):
        ask(words[:4] == ["worker", str(worker), "line", str(line)], f"reply {words}")
        what, verb = words[4:], made[line][0]
        if what in (["nonode"], ["spent"]):
            ask(verb != "see", f"{what} of a see")
            told[worker - 1].append((made[line], None))
        else:
            ask(what[0] == ("saw" if verb == "see" else "set") and len(what) == 3, f"{what} of a {verb}")
            told[worker - 1].append((made[line], (int(what[1]), int(what[2]))))
    return told


def has_order(told, last):
    """Whether the replies can stand in some order, each worker's in its own, as those of one pair that ends as the last."""

    def settled(places, pair):
        """Reads of this pair and refusals come at once: they change nothing."""
        places = list(places)
        for worker, replies in enumerate(told):
            while places[worker] < len(replies):
                record, shown = replies[places[worker]]
                if shown is not None and (record[0] != "see" or shown != pair):
                    break
                places[worker] += 1
        return tuple(places)

    begin = (settled([0] * len(told), (0, 0)), (0, 0))
    seen, waiting = {begin}, [begin]
    while waiting:
        places, pair = waiting.pop()
        if pair == last and all(place == len(replies) for place, replies in zip(places, told)):
            return True
        for worker, replies in enumerate(told):
            if places[worker] == len(replies):
                continue
            record, shown = replies[places[worker]]
            if record[0] != "see" and shown == after(record, pair):
                moved = (*places[:worker], places[worker] + 1, *places[worker + 1:])
                state = (settled(moved, shown), shown)
                if state not in seen:
                    seen.add(state)
                    waiting.append(state)
    return False


def judge(made, workers, rows, lines):
    ask(len(lines) == len(made) + 4 and lines[0] == "watch" and lines[-2] == "rest", "the lines around the replies")
    told = read_replies(made, workers, lines[1:-3])
    now = lines[-3].split(" ")
    ask(now[0] == "now" and len(now) == 3, f"last {now}")
    ask(has_order(told, (int(now[1]), int(now[2]))), "no order of the replies")
    shown = [(record[0], pair) for replies in told for record, pair in replies]
    ask(rows < 65535 or all(pair for _, pair in shown), "a refusal with rows enough")
    rest = lines[-1].split(" ")
    ask(len(rest) == 7 and [rest[0], *rest[1::2]] == ["cell", "given", "reused", "linked"], f"rest {rest}")
    given, reused, linked = map(int, rest[2::2])
    published = any(verb != "see" and pair for verb, pair in shown)
    ask(given == reused + linked and linked == (3 if published else 0), f"a row leaked: {rest}")


def run(program, made, *words):
    done = subprocess.run([program, "--mode=watch", *words], input=file_of(made), capture_output=True, timeout=120)
    ask(done.returncode == 0, f"status {done.returncode}")
    return done.stdout.decode().splitlines()


def main():
    options = argparse.ArgumentParser(description=__doc__, formatter_class=argparse.RawDescriptionHelpFormatter)
    options.add_argument("--program", default="./mooringakee")
    options.add_argument("--files", type=int, default=100)
    options.add_argument("--lines", type=int, default=60)
    options.add_argument("--seed", type=int, default=1)
    chosen = options.parse_args()
    rng = random.Random(chosen.seed)
    wrong = 0
    for number in range(chosen.files):
        made = records(rng, rng.randrange(chosen.lines + 1))
        workers, rows = rng.randrange(1, 9), rng.choice((8, 64, 65535))
        try:
            ask(run(chosen.program, made) == alone(made), "the text by one worker")
            judge(made, workers, rows, run(chosen.program, made, f"--posters={workers}", f"--rows={rows}", "--rest=yes"))
        except Wrong as why:
            wrong += 1
            print(f"file {number}, {workers} workers, {rows} rows: {why}")
    print(f"{chosen.files} files, {wrong} wrong")
    sys.exit(wrong > 0)


if __name__ == "__main__":
    main()
