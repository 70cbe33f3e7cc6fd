#!/usr/bin/env python3
"""Generates job files, with rush jobs and without, and judges what the program reports of them against the rules.

check_reports.py [--program PATH] [--files N] [--lines N] [--seed N]

Each file is run with both sets. By one poster and no taker the whole report is computed; by several workers it is judged line by
line: each record has one reply, each queue's positions stand once on its board, in a reply of a poster and in a claim, in orders that
one queue and one set can have. Prints how many files were judged, and each that is wrong; the status is 1 where one is.
"""
import argparse
import csv
import io
import random
import subprocess
import sys

OPS = ("bytes", "words", "sum")


def value(op, text):
    if op == "bytes":
        return len(text.encode())
    if op == "words":
        return len([word for word in text.split(" ") if word])
    return sum(int(number) for number in text.split(" ")) if text else 0


def text_for(rng, op):
    if op == "sum":
        return " ".join(str(rng.randrange(1000)) for _ in range(rng.randrange(5)))
    return "".join(rng.choice('ab  ,"\nµ') for _ in range(rng.randrange(9)))


def records(rng, count, with_rush):
    ids = rng.choice((3, 10, 10 * count))
    made = []
    for _ in range(count):
        verb = rng.choice(("post", "post", "rush" if with_rush else "post", "drop"))
        name = rng.randrange(ids)
        op = rng.choice(OPS)
        made.append((verb, name) if verb == "drop" else (verb, name, op, text_for(rng, op)))
    return made


def file_of(made):
    out = io.StringIO()
    csv.writer(out, lineterminator="\n").writerows(made)
    return out.getvalue().encode()


def has_rush(made):
    return any(record[0] == "rush" for record in made)


def alone(made):
    """The report by one poster and no taker, with rows enough: the caller takes all rush jobs, and then the others."""
    opened, queues, posts = set(), {"post": [], "rush": []}, []
    for line, record in enumerate(made):
        verb, name = record[0], record[1]
        if verb == "drop":
            what = "dropped" if name in opened else "unknown"
            opened.discard(name)
        elif name in opened:
            what = "busy"
        else:
            opened.add(name)
            what = f"{'rushed' if verb == 'rush' else 'posted'} {len(queues[verb])}"
            queues[verb].append(line)
        posts.append(f"poster 1 line {line} {what}")
    boards, takes = {"post": [], "rush": []}, []
    for verb in ("rush", "post"):
        for at, line in enumerate(queues[verb]):
            _, name, op, text = made[line]
            what = f"done {value(op, text)}" if name in opened else "void"
            opened.discard(name)
            boards[verb].append(f"{at} line {line} id {name} {what}")
            takes.append(f"taker 0 {'rush' if verb == 'rush' else 'at'} {at} {what}")
    rush = ["rush", *boards["rush"]] if has_rush(made) else []
    return ["board", *boards["post"], *rush, "replies", *posts, *takes]


class Wrong(Exception):
    pass


def ask(holds, what):
    if not holds:
        raise Wrong(what)


def parts(report):
    """The lines under each of the headings board, rush, replies and rest."""
    found, here = {}, None
    for line in report:
        if line in ("board", "rush", "replies", "rest"):
            ask(line not in found, f"{line} stands twice")
            found[line] = here = []
        else:
            ask(here is not None, "no board at the beginning")
            here.append(line.split(" "))
    return found


def read_board(lines, made, verb):
    """Of each position the record and what became of it."""
    board = []
    for at, words in enumerate(lines):
        line = int(words[2])
        ask(words[:2] == [str(at), "line"] and words[3] == "id", f"board line {words}")
        ask(made[line][0] == verb and words[4] == str(made[line][1]), f"record at {at}")
        what = words[5:]
        ask(what in (["void"], ["done", str(value(*made[line][2:]))]), f"what became of {line}")
        board.append((line, what))
    return board


def judge(made, posters, takers, report):
    found = parts(report)
    wanted = ["board", *(["rush"] if has_rush(made) else []), "replies", "rest"]
    ask(list(found) == wanted, f"headings {list(found)}")
    boards = {"post": read_board(found["board"], made, "post"), "rush": read_board(found.get("rush", []), made, "rush")}
    asked = [(1 + line % posters, line) for line in range(len(made))]
    replies = found["replies"]
    opens, closes, refused = {}, {}, set()
    for (poster, line), words in zip(sorted(asked), replies):
        ask(words[:4] == ["poster", str(poster), "line", str(line)], f"reply {words}")
        verb, name = made[line][:2]
        what = words[4:]
        if what[0] in ("posted", "rushed"):
            ask(what[0] == {"post": "posted", "rush": "rushed"}.get(verb), f"{what} of a {verb}")
            ask(boards[verb][int(what[1])][0] == line, f"position of {line}")
            opens.setdefault(name, []).append(line)
        elif what[0] in ("dropped", "unknown"):
            ask(verb == "drop", f"{what} of a {verb}")
            closes[name] = closes.get(name, 0) + (what[0] == "dropped")
        else:
            ask(verb != "drop" and what[0] in ("busy", "nonode", "spent"), f"{what} of a {verb}")
            refused.add(name)
    ask(sum(len(lines) for lines in opens.values()) == len(boards["post"]) + len(boards["rush"]), "more on the boards than was posted")
    for board in boards.values():
        for poster in range(1, posters + 1):
            own = [line for line, _ in board if 1 + line % posters == poster]
            ask(own == sorted(own), f"order of poster {poster}'s jobs")
    taken, last = {"at": [], "rush": []}, (0, {})
    for words in replies[len(made):]:
        taker, side, at = int(words[1]), words[2], int(words[3])
        ask(words[0] == "taker" and taker <= takers and side in taken and taker >= last[0], f"claim {words}")
        if taker != last[0]:
            last = (taker, {})
        ask(at > last[1].get(side, -1), f"order of taker {taker}'s claims")
        last[1][side] = at
        line, what = boards["rush" if side == "rush" else "post"][at]
        ask(words[4:] == what, f"claim of {line}")
        taken[side].append(at)
        closes[made[line][1]] = closes.get(made[line][1], 0) + (what[0] == "done")
    ask(sorted(taken["at"]) == list(range(len(boards["post"]))), "claims of the queue")
    ask(sorted(taken["rush"]) == list(range(len(boards["rush"]))), "claims of the rush queue")
    for name in set(opens) | set(closes):
        left = len(opens.get(name, [])) - closes.get(name, 0)
        ask(name in refused or left in (0, 1), f"id {name} was closed too often, or opened twice")
    rest = [words[0] for words in found["rest"]]
    ask(rest == ["queue", *(["rush"] if has_rush(made) else []), "set"], f"rest of {rest}")
    for name, given, reused, linked in ((w[0], int(w[2]), int(w[4]), int(w[6])) for w in found["rest"]):
        ask(given == reused + linked, f"{name}: a row leaked")
        if name != "set":
            ask(linked == 1 and given > len(boards["rush" if name == "rush" else "post"]), f"{name}: rows given")


def run(program, made, *words):
    done = subprocess.run([program, *words], input=file_of(made), capture_output=True, timeout=120)
    ask(done.returncode == 0, f"status {done.returncode}")
    return done.stdout.decode().splitlines()


def main():
    options = argparse.ArgumentParser(description=__doc__, formatter_class=argparse.RawDescriptionHelpFormatter)
    options.add_argument("--program", default="./mooringakee")
    options.add_argument("--files", type=int, default=100)
    options.add_argument("--lines", type=int, default=60)
    options.add_argument("--seed", type=int, default=1)
    chosen = options.parse_args()
    rng = random.Random(chosen.seed)
    wrong = 0
    for number in range(chosen.files):
        made = records(rng, rng.randrange(chosen.lines + 1), number % 2 == 1)
        posters, takers = rng.randrange(1, 9), rng.randrange(8)
        rows = rng.choice((8, 64, 65535))
        for kind in ("list", "split"):
            try:
                ask(run(chosen.program, made, f"--set={kind}") == alone(made), "the report by one poster")
                words = (f"--posters={posters}", f"--takers={takers}", f"--rows={rows}", f"--set={kind}", "--rest=yes")
                judge(made, posters, takers, run(chosen.program, made, *words))
            except Wrong as why:
                wrong += 1
                print(f"file {number}, set {kind}, {posters} posters, {takers} takers, {rows} rows: {why}")
    print(f"{chosen.files} files, {wrong} wrong")
    sys.exit(wrong > 0)


if __name__ == "__main__":
    main()
