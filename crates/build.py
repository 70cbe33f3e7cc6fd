#!/usr/bin/env python3
"""build.py NAME CRATE: proves and builds the program of this crate, which users call NAME, with the libraries below it.

Lower libraries come first, and as many side by side as there are processors and memory, the longest chain before others. What
is built is kept, so that a call that was stopped is gone on with. On standard error it says how far it is: by one line that
is renewed on a terminal, else by a line for each crate. The status is 0, or 70 where the program could not be built.

Each crate is built in a folder of its own, with its sources, those of the crates below it and what was built of them, and what is
built of it is moved to its out/ once it is proved: the statements of a library, for those above it, lie in out/statements."""

import contextlib
import fcntl
import functools
import hashlib
import os
import shutil
import signal
import subprocess
import sys
import tempfile
import time

TOP = os.path.dirname(os.path.dirname(os.path.abspath(__file__)))
PARTS = ('src', 'specs', 'proofs')
FAILED = 70
# The signals that end this script, once it has ended what it runs.
ENDINGS = (signal.SIGTERM, signal.SIGHUP, signal.SIGINT)
# What proves and builds one crate.
PROVE = [sys.executable, f'{TOP}/crates/prove.py', shutil.which('rt') or 'rt']
# Where what was built of a library lies, and where it is built and read.
KEPT, MADE = 'out/statements', 'out/rlib'
# How long proofs take, as measured: seconds for each byte of code, whatever the bytes of its proofs, where each crate counts some bytes
# more than it has. What is measured here counts beside it, as much as its bytes are to those of the last number.
SECONDS_A_BYTE = 0.002
BYTES_A_CRATE = 10000
BYTES_MEASURED = 100000
# The most jobs of one crate: each further one reads once more what the crate stands on.
MOST_JOBS = 4
# How many crates may wait while the first of them has a second processor: with this number, as simulated, the whole ends soonest.
SPARED = 2
# Memory for each job of a check that has just begun, and how long it counts as such.
MEMORY, YOUNG = 2_000_000_000, 60


class Stopped(Exception):
    """Why nothing more is built."""


def say(text):
    print(text, file=sys.stderr, flush=True)


def text_of(path):
    try:
        with open(path, encoding='utf-8', errors='replace') as file:
            return file.read()
    except OSError:
        return ''


def lines_of_crates():
    """The line of each crate in crates.txt, and the crates of the repository that it names."""
    lines = {}
    for line in text_of(f'{TOP}/crates.txt').splitlines():
        line = line.partition('#')[0].strip()
        if ':' in line:
            lines[line.split(':')[0].split()[0]] = line
    return lines, {name: [it for it in line.partition(':')[2].split() if it in lines] for name, line in lines.items()}


LINES, USES = lines_of_crates()


@functools.lru_cache(maxsize=None)
def below(name):
    return frozenset(USES[name]).union(*map(below, USES[name]))


def folder_of(name):
    return f'{TOP}/crates/{name}'


def sources(name, top=TOP):
    for part in PARTS:
        for at, folders, files in os.walk(f'{top}/crates/{name}/{part}'):
            folders.sort()
            yield from (f'{at}/{file}' for file in sorted(files))


@functools.lru_cache(maxsize=None)
def size(name):
    code = (file for file in sources(name) if file.endswith('.rt') and '/tests' not in file[len(TOP):])
    return BYTES_A_CRATE + sum(map(os.path.getsize, code))


@functools.lru_cache(maxsize=None)
def mark(name, top=TOP):
    """A sum of all that the crate is built from, here or in the folder that it was built in, when that was first asked for."""
    found = hashlib.sha256(f'{kit()}\n{LINES[name]}\n'.encode())
    for file in sources(name, top):
        with open(file, 'rb') as it:
            found.update(f'{file[len(top):]} {hashlib.sha256(it.read()).hexdigest()}\n'.encode())
    for it in USES[name]:
        found.update(mark(it, top).encode())
    return found.hexdigest()


@functools.lru_cache(maxsize=None)
def kit():
    return subprocess.run(['rt', 'version'], stdin=subprocess.DEVNULL, capture_output=True, text=True).stdout


def is_built(name):
    return text_of(f'{folder_of(name)}/{KEPT}/mark') == mark(name)


@contextlib.contextmanager
def locked(folder, why):
    """Waits until no rt, and no other call of this script, works in the folder."""
    handle = os.open(folder, os.O_RDONLY)
    try:
        try:
            fcntl.flock(handle, fcntl.LOCK_EX | fcntl.LOCK_NB)
        except BlockingIOError:
            say(why)
            fcntl.flock(handle, fcntl.LOCK_EX)
        yield
    finally:
        os.close(handle)


def link_or_copy(one, other):
    """Gives a file a second name: rt replaces such a file, and never writes into it."""
    try:
        os.link(one, other)
    except OSError:
        shutil.copy2(one, other)


def copy_folder(one, other):
    if os.path.isdir(one):
        shutil.copytree(one, other, symlinks=True, copy_function=link_or_copy)


def workplace():
    """Where libraries are built: beside what git keeps of this checkout, where no check looks for files, or among the temporary files."""
    git = f'{TOP}/.git'
    if os.path.isfile(git):
        git = os.path.join(TOP, text_of(git).strip()[len('gitdir: '):])
    if os.path.isdir(git) and os.access(git, os.W_OK):
        return f'{git}/mooringakee-build'
    return f'{tempfile.gettempdir()}/mooringakee-build-{os.getuid()}-{hashlib.sha256(TOP.encode()).hexdigest()[:16]}'


WORKPLACE = workplace()


def prepare(name):
    """Makes the folder that a crate is built in."""
    place = f'{WORKPLACE}/{name}'
    shutil.rmtree(place, ignore_errors=True)
    os.makedirs(f'{place}/crates', mode=0o700)
    link_or_copy(f'{TOP}/HANDLES', f'{place}/HANDLES')
    with open(f'{place}/crates.txt', 'w', encoding='utf-8') as file:
        file.writelines(f'{LINES[it]}\n' for it in sorted({name, *below(name)}))
    for it in sorted({name, *below(name)}):
        for part in PARTS:
            copy_folder(f'{folder_of(it)}/{part}', f'{place}/crates/{it}/{part}')
    for it in below(name):
        copy_folder(f'{folder_of(it)}/{KEPT}', f'{place}/crates/{it}/{MADE}')
    return place


def take(name, made):
    """Moves what was built of a crate, a folder or a file, to that crate."""
    place, kept = f'{WORKPLACE}/{name}', f'{folder_of(name)}/{KEPT if made == MADE else made}'
    if mark(name, place) != mark(name):
        raise Stopped(f'what crates/{name} is built from changed meanwhile')
    os.makedirs(os.path.dirname(kept), exist_ok=True)
    if made == MADE:
        shutil.rmtree(kept, ignore_errors=True)
        with open(f'{place}/crates/{name}/{MADE}/mark', 'w', encoding='utf-8') as file:
            file.write(mark(name))
    shutil.move(f'{place}/crates/{name}/{made}', kept)
    shutil.rmtree(place, ignore_errors=True)


@contextlib.contextmanager
def uninterrupted():
    """Lets what ends this script wait until this is done."""
    before = signal.pthread_sigmask(signal.SIG_BLOCK, ENDINGS)
    try:
        yield
    finally:
        signal.pthread_sigmask(signal.SIG_SETMASK, before)


def free_memory():
    for line in text_of('/proc/meminfo').splitlines():
        if line.startswith('MemAvailable:'):
            return 1024 * int(line.split()[1])
    return MEMORY


class Build:
    def __init__(self, called, program):
        self.called, self.program = called, program
        self.crates = {program, *below(program)}
        self.processors = len(os.sched_getaffinity(0))
        self.logs = f'{folder_of(program)}/out/build-logs'
        self.begun, self.told, self.line = time.monotonic(), 0, ''
        self.running, self.jobs, self.since, self.took = {}, {}, {}, {}
        self.done = {it for it in below(program) if is_built(it)}

    @functools.lru_cache(maxsize=None)
    def height(self, name):
        """The size of the longest chain from the crate up to the program."""
        return size(name) + max((self.height(it) for it in self.crates if name in USES[it]), default=0)

    def ready(self, done, left):
        """Which of the crates that are left can be built, the longest chain first."""
        return sorted((it for it in left if done.issuperset(USES[it])), key=lambda it: (-self.height(it), it))

    def idle(self):
        """How many processors are left beside those that are being built."""
        return self.processors - sum(self.jobs[it] for it in self.running)

    def spare_memory(self):
        """The memory that is left once those that are being built have theirs, and one more its own."""
        return free_memory() - MEMORY * (1 + sum(self.jobs[it] for it in self.running if time.monotonic() - self.since[it] < YOUNG))

    def has_room(self):
        """Whether one more library can be built beside those that are being built."""
        return not self.running or (self.idle() > 0 and self.spare_memory() >= 0)

    def jobs_for(self, ready, is_first):
        """With how many jobs one of those that are ready is built: with the processors that no other one of them waits for. The first,
        from which the longest chain goes up, has a second processor also where few others could use that one."""
        jobs = self.idle() // ready
        if is_first and self.idle() > 1 and len(self.running) + ready <= self.processors + SPARED:
            jobs = max(jobs, 2)
        return max(min(jobs, 1 + self.spare_memory() // MEMORY, MOST_JOBS), 1)

    def start(self, name, jobs):
        """Starts a crate with so many jobs."""
        self.jobs[name] = jobs
        place, words = prepare(name), [*PROVE, name, str(self.jobs[name])]
        with open(f'{self.logs}/{name}', 'w', encoding='utf-8') as log:
            self.running[name] = subprocess.Popen(words, cwd=place, stdin=subprocess.DEVNULL, stdout=log, stderr=log)
        self.since[name] = time.monotonic()

    def made(self, name):
        """What is built of a crate, in its folder."""
        return f'out/{name}' if name == self.program else MADE

    def fails(self, name):
        return self.running[name].returncode != 0

    def end(self, name):
        if self.fails(name):
            raise Stopped(f'{name} is not proved; its log is {self.logs}/{name}, with the end:\n'
                          + '\n'.join(text_of(f'{self.logs}/{name}').splitlines()[-20:]))
        take(name, self.made(name))
        del self.running[name]
        self.took[name] = time.monotonic() - self.since[name]
        self.done.add(name)
        self.tell(name)

    def seconds_left(self):
        """How long the rest takes, if each crate takes its time by size, and those side by side go on as they do."""
        now, built = time.monotonic(), sum(map(size, self.took))
        pace = (sum(self.took.values()) + SECONDS_A_BYTE * BYTES_MEASURED) / (built + BYTES_MEASURED)
        ends = {it: max(pace * size(it) - (now - self.since[it]), 0) for it in self.running}
        done, left, clock = set(self.done), self.crates - self.done - set(ends), 0
        while left or ends:
            for it in self.ready(done, left)[:max(self.processors - len(ends), 0)]:
                left.remove(it)
                ends[it] = clock + pace * size(it)
            first = min(ends, key=ends.get)
            clock = ends.pop(first)
            done.add(first)
        return clock

    def tell(self, ended=None):
        """Says how far it is: on a terminal once a second, in one line; else where a crate has ended."""
        is_terminal, now = sys.stderr.isatty(), time.monotonic()
        if not ended and (not is_terminal or now - self.told < 1):
            return
        spent, left = round((now - self.begun) / 60), round(self.seconds_left() / 60)
        text = f'{self.called}: crate {len(self.done)} of {len(self.crates)}, {spent} minutes so far, about {left} to go: '
        text += ended if not is_terminal else ', '.join(sorted(self.running, key=self.since.get))
        if not is_terminal:
            say(text)
            return
        self.told, self.line = now, text[:(os.get_terminal_size(sys.stderr.fileno()).columns or 80) - 1]
        print(f'\r{self.line}\033[K', end='', file=sys.stderr, flush=True)

    def clear(self):
        if self.line:
            print('\r\033[K', end='', file=sys.stderr, flush=True)

    def run(self):
        os.makedirs(self.logs, exist_ok=True)
        os.makedirs(WORKPLACE, mode=0o700, exist_ok=True)
        if os.path.islink(WORKPLACE) or os.lstat(WORKPLACE).st_uid != os.getuid():
            raise Stopped(f'{WORKPLACE} is of another user')
        try:
            while self.program not in self.done:
                ready = self.ready(self.done, self.crates - self.done - set(self.running))
                for at, name in enumerate(ready):
                    if self.has_room():
                        self.start(name, self.jobs_for(len(ready) - at, at == 0))
                for name in sorted((it for it, ran in self.running.items() if ran.poll() is not None), key=self.fails):
                    with uninterrupted():
                        self.end(name)
                self.tell()
                time.sleep(0.05)
        finally:
            self.clear()
            for ran in self.running.values():
                ran.terminate()
            for name, ran in self.running.items():
                if ran.wait() == 0:
                    take(name, self.made(name))
        shutil.rmtree(WORKPLACE, ignore_errors=True)


def stop(number, _):
    raise SystemExit(128 + number)


def main(called, program):
    for number in ENDINGS:
        signal.signal(number, stop)
    say(f'{called}: proves and builds the program, once; what is proved when you stop it is kept')
    try:
        with locked(f'{TOP}/crates', f'{called}: waiting for another call that builds'):
            Build(called, program).run()
    except (Stopped, OSError) as why:
        say(f'{called}: {why}')
        return FAILED
    return 0


if __name__ == '__main__':
    sys.exit(main(*sys.argv[1:]))
