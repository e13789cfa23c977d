#!/usr/bin/env python3
"""Prints what edits of an object in a file cost, by the object's size and the edit's.

Usage: bench/objects.py [ROUNDS]      (default: 2000)

Runs crates/bench_object, built by `rt run` in that folder, on files in a temporary folder: objects of 10 MB, 100 MB
and 1 GB, filled by appends, and edits of 100 bytes, 10 KB and 100 KB at random places, an insert and a delete in
turn, each of them settled. Time is taken from the line that says that the object is filled to the end, and is the best
of three runs. The calls of the device, the pages and the allocations are counted by bench/counted_calls.c, built by
cc, as the difference to a run of no rounds. Beside it stands what just as many calls of as many pages take a plain
program (bench/plain_calls.c, built by cc), at random places of a file of the same size.
"""
import math
import os
import subprocess
import sys
import tempfile
import time

TOP = os.path.join(os.path.dirname(os.path.abspath(__file__)), '..')
PROGRAM = os.path.join(TOP, 'crates', 'bench_object', 'out', 'bench_object')
RUNS = 3
PAGE = 4096
OBJECTS = [('10 MB', 10**7), ('100 MB', 10**8), ('1 GB', 10**9)]
EDITS = [('100 B', 100), ('10 KB', 10**4), ('100 KB', 10**5)]


def rounds_take(words, folder):
    """The seconds from the line `filled` to the end, of the fastest of some runs."""
    taken = []
    for _ in range(RUNS):
        with subprocess.Popen(words, cwd=folder, stdout=subprocess.PIPE) as run:
            run.stdout.readline()
            begin = time.perf_counter()
            run.communicate(timeout=600)
            taken.append(time.perf_counter() - begin)
        if run.returncode:
            raise SystemExit(f'{words}: status {run.returncode}')
    return min(taken)


def counted(words, folder, library):
    """Reads, bytes read, calls of the device, bytes written and allocations of a whole run."""
    out = subprocess.run(words, cwd=folder, check=True, timeout=600, stderr=subprocess.PIPE, stdout=subprocess.DEVNULL,
                         env={**os.environ, 'LD_PRELOAD': library})
    return [int(number) for number in out.stderr.split()[-5:]]


def call_of(calls, size):
    """How many calls a round has, and of how many pages each: whole numbers, so that no byte is left out."""
    whole = math.ceil(calls)
    return [whole, math.ceil(size / PAGE / whole) if whole else 0]


def main():
    rounds = int(sys.argv[1]) if len(sys.argv) > 1 else 2000
    if not os.path.exists(PROGRAM):
        print('build crates/bench_object first: rt run in its folder', file=sys.stderr)
        return 1
    with tempfile.TemporaryDirectory() as folder:
        plain = os.path.join(folder, 'plain_calls')
        subprocess.run(['cc', '-O2', '-o', plain, os.path.join(TOP, 'bench', 'plain_calls.c')], check=True)
        library = os.path.join(folder, 'counted_calls.so')
        source = os.path.join(TOP, 'bench', 'counted_calls.c')
        subprocess.run(['cc', '-O2', '-shared', '-fPIC', '-o', library, source], check=True)
        print('| Object | Edit | us | Plain us | Pages written | Pages read | Device calls | Allocations |')
        print('|---|---|---|---|---|---|---|---|')
        for size_name, size in OBJECTS:
            for edit_name, edit in EDITS:
                words = [PROGRAM, str(size), str(edit)]
                ours = rounds_take([*words, str(rounds)], folder) / rounds * 1e6
                none = counted([*words, '0'], folder, library)
                some = counted([*words, str(rounds)], folder, library)
                reads, read, calls, written, allocations = [(b - a) / rounds for a, b in zip(none, some)]
                same = [*call_of(reads, read), *call_of(calls - reads, written), size // PAGE, rounds]
                theirs = rounds_take([plain, 'places', *map(str, same)], folder) / rounds * 1e6
                print(f'| {size_name} | {edit_name} | {ours:.1f} | {theirs:.1f} | {written / PAGE:.2f} | {read / PAGE:.2f} | '
                      f'{calls:.2f} | {allocations:.1f} |', flush=True)
    return 0


sys.exit(main())
