#!/usr/bin/env python3
"""prove.py RT NAME JOBS: proves the crate NAME of the crates.txt that stands here, with so many jobs, and builds its library or its
program in its folder out/.

It is proved as `rt ci` proves it: from nothing, held to HANDLES, and over the statements of the libraries below. `rt lib` and `rt run`
would read the proofs of these as well, of which nothing is cited. An RT that this script doesn't know does so all the same."""

import functools
import importlib.machinery
import importlib.util
import operator
import os
import sys

# What this script calls of a crate of rt's.
CALLED = ('ci', 'words', 'prove', 'link')


def loaded(rt):
    """The script rt as a module."""
    sys.dont_write_bytecode = True
    loader = importlib.machinery.SourceFileLoader('rt', os.path.realpath(rt))
    module = importlib.util.module_from_spec(importlib.util.spec_from_loader('rt', loader))
    loader.exec_module(module)
    return module


def crate_of(module, name):
    """The crate as `rt ci` has it, which reads and leaves statements alone. What it stands on is found once, not once for each way that
    leads down to it, and nothing is summed up: whoever called has done so."""
    kind = module.Crate
    kind.allowed, kind.cuts_libraries = module.handles_of(os.getcwd()), True
    kind.below, kind.stamp = functools.cache(kind.below), lambda crate: ''
    module.rtlib.Crate = kind
    [crate] = [it for it in module.rtlib.crates_below(os.getcwd()) if it.name == name]
    operator.attrgetter(*CALLED)(crate)
    return crate


def prove(module, crate, jobs):
    """Proves the crate; a program is compiled by LLVM in the same process, as `rt ci` compiles tests."""
    if not crate.is_program:
        return crate.ci(['--jobs', jobs], False)
    program = f'out/{crate.name}'
    words = [*crate.words(['--jobs', jobs], keeps=False), '--toolchain', f'{module.KIT}/toolchain', '--backend', 'llvm']
    return crate.prove(['build', *words, '-o', f'{program}.o']) or crate.link(f'{program}.o', program)


def main(rt, name, jobs):
    folder = f'crates/{name}'
    os.makedirs(f'{folder}/out', exist_ok=True)
    try:
        module = loaded(rt)
        crate = crate_of(module, name)
        # Its first call sets a handler of signals, which the main thread alone may.
        module.rtlib.guarded()
    except (AttributeError, SyntaxError, ValueError):
        os.chdir(folder)
        is_program = os.path.isfile('src/main.rt')
        os.execv(rt, [rt, 'run'] if is_program else [rt, 'lib', '--jobs', jobs])
    return prove(module, crate, jobs)


if __name__ == '__main__':
    sys.exit(main(*sys.argv[1:]))
