#!/usr/bin/env python3
"""Plants faults in the containers' code, in copies, and tells which line of the stress program catches each.

stress_faults.py [--only WORD] [--seconds N] [--runs N]

A copy holds one fault of each container at most, and only that container's runs are told of it. Each copy is built once by `rt try`,
so nothing of it is proved, and nothing need be; no optimiser works on it, so that a call takes some fifty times as long as one of
the proved program. Each fault is driven N times (10) by four threads, with the words that suit it, and N times with `--container`
alone. Prints a line for each fault: its name, its words, how many of its runs were called wrong, how many of those with
`--container` alone, and the first line WRONG|.., or 'not caught'. The status is 1 where a run with
a fault's own words isn't called wrong within the time (10 seconds)."""
import argparse
import os
import re
import shutil
import subprocess
import sys
import tempfile

TOP = os.path.dirname(os.path.dirname(os.path.abspath(__file__)))
# How many calls each thread makes, and of how many rows, where a fault's own words don't say otherwise.
USUAL = (('--calls', '500'), ('--rows', '2000'))
# The fault; the words that it is driven with, of which the second is the container; and the file, what stands there once, and what
# stands there instead.
FAULTS = (
    ('a take answers empty where the tail lags', '--container queue',
     'orc_queue/src/take.rt',
     '            let took = take_next(links, p, head, &next);\n            links.release(p, next);\n            match took {\n'
     '                Some((job, at)) => TakeTurn::Took(job, at),\n',
     '            let lags = links.same(p, &At::Root(TAIL), &Want::Node(head, false), None);\n'
     '            let took = take_next(links, p, head, &next);\n            links.release(p, next);\n            match took {\n'
     '                Some((job, at)) => TakeTurn::Took(job, at),\n                None if lags => TakeTurn::Empty,\n'),
    ('two takers are told one job', '--container queue',
     'orc_queue/src/take.rt',
     '        Some((job, at))\n    } else {\n        None\n',
     '        Some((job, at))\n    } else {\n        Some((job, at))\n'),
    ('a put is acknowledged and dropped', '--container queue',
     'orc_queue/src/put.rt',
     '    if turns == 0 {\n        return Err(QueueRefused::Again);\n',
     '    if job % 1000 == 8 {\n        return Ok(job % 65536);\n    }\n    if turns == 0 {\n        return Err(QueueRefused::Again);\n'),
    ('a node that was not linked is let go and not given up', '--container queue --turns 1 --rows 24',
     'orc_domain/src/links.rt',
     '        self.give_up(&mut p.pass, h.row());\n        self.unlock(&mut p.pass, h.slot());\n        h.end();',
     '        self.unlock(&mut p.pass, h.slot());\n        h.end();'),
    ('contains lies about some keys', '--container set --mix 34/33/33 --keys 64 --roots 4',
     'orc_set/src/set.rt',
     '        self.list.contains(p, root_of(key, self.roots), key, turns)',
     '        let there = self.list.contains(p, root_of(key, self.roots), key, turns)?;\n        Ok(there && key % 16 != 1)'),
    ('an insert that put a key answers false', '--container set --mix 34/33/33 --keys 64 --roots 4',
     'orc_list/src/insert.rt',
     '    answer_of(turn)\n',
     '    match turn {\n        InsertTurn::Answered(answer, _) => Ok(answer && key % 16 != 1),\n        turn => answer_of(turn),\n    }\n'),
    ('a remove answers true where another removed the key', '--container set --mix 34/33/33 --keys 2 --roots 1 --calls 2000',
     'orc_ordered_search/src/call.rt',
     '        Call::Remove => take_out::<K, L>(links, p, root, key, left, first, node, next),\n',
     '        Call::Remove => {\n            let _took = take_out::<K, L>(links, p, root, key, left, first, node, next);\n            true\n        }\n'),
    ('a key is put under another bucket', '--container set --mix 34/33/33 --keys 64 --roots 4',
     'orc_set/src/set.rt',
     '        self.list.insert(p, root_of(key, self.roots), key, turns)',
     '        self.list.insert(p, root_of(key / 2, self.roots), key, turns)'),
    ('an insert into a set that doubles answers false', '--container split --mix 34/33/33 --keys 64',
     'orc_ordered_search/src/insert.rt',
     '        Ok(true) => InsertTurn::Answered(true, passed),',
     '        Ok(true) => InsertTurn::Answered(passed % 4 != 1, passed),'),
    ('a dummy is told as a key', '--container split --mix 34/33/33 --keys 64',
     'orc_split_set/src/answer.rt',
     '    let found = search_for(links, p, NewNode::Key(key), left);',
     '    let wanted = if call == Call::Remove || key > 3 {\n        NewNode::Key(key)\n    } else {\n        NewNode::Dummy(key as u32)\n    };\n'
     '    let found = search_for(links, p, wanted, left);'),
    ('a read mixes two versions', '--container cell --calls 1000',
     'orc_cell/src/read.rt',
     '    let right = read_part(links, p, &At::Side(pair));\n    if confirm(links, p, &Want::Node(pair, false), left, right) {\n',
     '    let right = match links.look(p, &At::Root(PAIR), 3) {\n'
     '        Looked::Stable(_, Some(now)) => {\n'
     '            let right = read_part(links, p, &At::Side(&now));\n'
     '            links.release(p, now);\n'
     '            right\n'
     '        }\n'
     '        Looked::Stable(_, None) => read_part(links, p, &At::Side(pair)),\n'
     '        Looked::Moved => read_part(links, p, &At::Side(pair)),\n'
     '    };\n'
     '    if left != u64::MAX {\n'),
    ('a publish undoes another', '--container cell --mix 34/33/33',
     'orc_cell/src/publish.rt',
     '    if swing_pair(links, p, &Want::Node(old, false), pair, left, right, (x, y)) {\n'
     '        PublishTurn::Published(x, y)\n    } else {\n        PublishTurn::Over\n    }\n',
     '    if swing_pair(links, p, &Want::Node(old, false), pair, left, right, (x, y)) {\n'
     '        return PublishTurn::Published(x, y);\n    }\n'
     '    match links.look(p, &At::Root(PAIR), 5) {\n'
     '        Looked::Stable(_, Some(now)) => {\n'
     '            let done = swing_pair(links, p, &Want::Node(&now, false), pair, left, right, (x, y));\n'
     '            links.release(p, now);\n'
     '            if done {\n                PublishTurn::Published(x, y)\n            } else {\n                PublishTurn::Over\n            }\n'
     '        }\n'
     '        Looked::Stable(_, None) => PublishTurn::Over,\n        Looked::Moved => PublishTurn::Over,\n    }\n'),
    ('a publish is acknowledged and dropped', '--container cell --mix 34/33/33',
     'orc_cell/src/with_pair.rt',
     '    let empty = is_null(links, p);\n',
     '    if let (Some(x), Some(y)) = (left, right) {\n        if x % 16 == 9 {\n            return Ok((x, y));\n        }\n    }\n'
     '    let empty = is_null(links, p);\n'),
)

def container_of(fault):
    """The container that a fault's runs drive."""
    return fault[1].split()[1]


def completed(words):
    """The words, with the usual ones that they leave out."""
    words = words.split()
    for option, value in USUAL:
        if option not in words:
            words += [option, value]
    return words


def copies(faults):
    """The faults by copies: each has one fault of a container at most, and one in a domain has no other beside it."""
    made = []
    for fault in faults:
        alone = 'domain' in fault[2]
        for copy in made:
            if not alone and all(container_of(it) != container_of(fault) and 'domain' not in it[2] for it in copy):
                copy.append(fault)
                break
        else:
            made.append([fault])
    return made


def plant(folder, faults):
    """A copy of the sources with the faults in it."""
    shutil.copytree(f'{TOP}/crates', f'{folder}/crates', ignore=shutil.ignore_patterns('out'))
    for name in ('crates.txt', 'HANDLES'):
        shutil.copy(f'{TOP}/{name}', folder)
    subprocess.run(['git', 'init', '-q', folder], check=True)
    for _, _, file, old, new in faults:
        with open(f'{folder}/crates/{file}', encoding='utf-8') as it:
            text = it.read()
        if text.count(old) != 1:
            raise SystemExit(f'{file} has {text.count(old)} times what a fault replaces: {old}')
        with open(f'{folder}/crates/{file}', 'w', encoding='utf-8') as it:
            it.write(text.replace(old, new))


def ran(faults, seconds, runs):
    """What was written by each run of a copy with these faults, by the fault's place, whether its own words drive it, and the run."""
    told = {}
    with tempfile.TemporaryDirectory() as folder:
        plant(folder, faults)
        os.mkdir(f'{folder}/cases')
        for place, fault in enumerate(faults):
            for own in (True, False):
                words = fault[1] if own else f'--container {container_of(fault)}'
                for run in range(1, runs + 1):
                    name = f'{folder}/cases/{place}-{own}-{run}'
                    open(name, 'w', encoding='utf-8').close()
                    with open(f'{name}.args', 'w', encoding='utf-8') as it:
                        it.write('\n'.join([*completed(words), '--seed', str(run)]) + '\n')
        done = subprocess.run(['rt', 'try', '--seconds', str(seconds), '--cases', f'{folder}/cases'], cwd=f'{folder}/crates/stress',
                              stdin=subprocess.DEVNULL, capture_output=True, text=True)
    run = None
    for line in done.stdout.splitlines() + done.stderr.splitlines():
        case = re.match(r'== (\d+)-(True|False)-(\d+)$', line)
        if case:
            run = int(case[1]), case[2] == 'True', int(case[3])
        if run:
            told.setdefault(run, []).append(line)
    if not told:
        raise SystemExit(f'nothing ran: {done.stdout[-2000:]} {done.stderr[-2000:]}')
    return told


def wrong_of(told, place, own):
    """Of the runs of a fault the first line WRONG|.. of each that was called wrong."""
    wrong = []
    for (at, by_own, _), lines in told.items():
        lines = [line for line in lines if line.startswith('WRONG|')]
        if (at, by_own) == (place, own) and lines:
            wrong.append(lines[0])
    return wrong


def main():
    asked = argparse.ArgumentParser(description='Plants faults in the containers, and tells what catches each.')
    asked.add_argument('--only', default='', metavar='WORD', help='those alone whose name or words have this word')
    asked.add_argument('--seconds', type=int, default=10, metavar='N', help='how long a run may take (10)')
    asked.add_argument('--runs', type=int, default=10, metavar='N', help='how many runs each fault has of both kinds (10)')
    asked = asked.parse_args()
    missed = 0
    for faults in copies([it for it in FAULTS if asked.only in f'{it[0]} {it[1]}']):
        told = ran(faults, asked.seconds, asked.runs)
        for place, (name, words, *_) in enumerate(faults):
            own, plain = wrong_of(told, place, True), wrong_of(told, place, False)
            missed += len(own) < asked.runs
            line = own[0] if own else 'not caught'
            print(f'{name} | {words} | {len(own)} of {asked.runs} | {len(plain)} of {asked.runs} | {line}', flush=True)
    return missed > 0


if __name__ == '__main__':
    sys.exit(main())
