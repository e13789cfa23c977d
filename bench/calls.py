#!/usr/bin/env python3
"""Prints what a grant with its give, a write of pages to a file, and an exchange in a tree cost beside a plain
program's, and what the plan of an edit costs.

Usage: bench/calls.py [ROUNDS]      (default: 4000)

Runs crates/bench_space, built by `rt run` in that folder, and bench/plain_calls.c, built by cc, on the same
work: grants and gives on a space of 16,384 pages a quarter of which are used, and writes of pages of 4,096
bytes to a file in a temporary folder. Then crates/bench_plan, built likewise: plans from four segments, in a
small object and at the end of a large one, a hundred times as many. Last crates/bench_splice, built likewise: one
entry of a tree in a file is exchanged for another, beside just as many writes of single pages by the plain program;
its calls of the device, the pages that it writes and its allocations are counted by bench/counted_calls.c, built by
cc. A tree of height 4 with pages of 4,096 bytes is left out: it has more nodes than a space has pages. Each line is
the best of five runs, without what a run of no rounds takes.
"""
import os
import subprocess
import sys
import tempfile
import time

TOP = os.path.join(os.path.dirname(os.path.abspath(__file__)), '..')
PROGRAM = os.path.join(TOP, 'crates', 'bench_space', 'out', 'bench_space')
PLANS = os.path.join(TOP, 'crates', 'bench_plan', 'out', 'bench_plan')
SPLICES = os.path.join(TOP, 'crates', 'bench_splice', 'out', 'bench_splice')
RUNS = 5
WORK = [('grants', 1), ('grants', 8), ('grants', 64), ('writes', 1), ('writes', 4), ('writes', 64)]
PLACES = [0, 1 << 40]
# The bytes of a page, the entries of the object, and the height of its tree. A page of 4,096 bytes has room for 340
# pairs, and a node but the root has 170 at least: so a tree of height 4 has 2 * 170 * 170 nodes on its lowest level
# at least, and no space has so many pages.
TREES = [(256, 10, 1), (256, 200, 2), (256, 4000, 3), (256, 8100, 4), (4096, 200, 1), (4096, 50000, 2), (4096, 120000, 3)]


def best(program, words, folder):
    """The seconds of the fastest of some runs."""
    taken = []
    for _ in range(RUNS):
        begin = time.perf_counter()
        subprocess.run([program, *words], cwd=folder, check=True, timeout=600, stdout=subprocess.DEVNULL)
        taken.append(time.perf_counter() - begin)
    return min(taken)


def call(program, words, rounds, folder, *more):
    """Microseconds a round."""
    none = best(program, [*words, '0', *more], folder)
    all_of_them = best(program, [*words, str(rounds), *more], folder)
    return max(all_of_them - none, 0) / rounds * 1e6


def counted(words, rounds, folder, library):
    """Calls of the device, bytes written, and allocations, a round."""
    def run(n):
        out = subprocess.run([SPLICES, *words, str(n)], cwd=folder, check=True, timeout=600, stderr=subprocess.PIPE,
                             stdout=subprocess.DEVNULL, env={**os.environ, 'LD_PRELOAD': library})
        return [int(number) for number in out.stderr.split()[-3:]]
    return [(after - before) / rounds for before, after in zip(run(0), run(rounds))]


def main():
    rounds = int(sys.argv[1]) if len(sys.argv) > 1 else 4000
    for program in (PROGRAM, PLANS, SPLICES):
        if not os.path.exists(program):
            print(f'build crates/{os.path.basename(program)} first: rt run in its folder', file=sys.stderr)
            return 1
    with tempfile.TemporaryDirectory() as folder:
        plain = os.path.join(folder, 'plain_calls')
        source = os.path.join(TOP, 'bench', 'plain_calls.c')
        subprocess.run(['cc', '-O2', '-o', plain, source], check=True)
        for kind, pages in WORK:
            ours = call(PROGRAM, [kind, str(pages)], rounds, folder)
            theirs = call(plain, [kind, str(pages)], rounds, folder)
            print(f'{kind} of {pages:2} pages: {ours:9.2f} us, plain {theirs:9.2f} us, {ours / max(theirs, 0.01):.2f} times')
        for place in PLACES:
            ours = call(PLANS, [str(place)], 100 * rounds, folder)
            print(f'plan of an edit at byte {place}: {ours:.2f} us')
        library = os.path.join(folder, 'counted_calls.so')
        source = os.path.join(TOP, 'bench', 'counted_calls.c')
        subprocess.run(['cc', '-O2', '-shared', '-fPIC', '-o', library, source], check=True)
        for page, entries, height in TREES:
            words = [str(page), str(entries)]
            ours = call(SPLICES, words, rounds, folder)
            calls, written, allocations = counted(words, rounds, folder, library)
            pages = round(written / page)
            theirs = call(plain, ['writes', '1'], pages * rounds, folder, str(page)) * pages
            print(f'splice at height {height}, pages of {page:4}: {ours:9.2f} us, plain writes {theirs:9.2f} us, '
                  f'{calls:.2f} device calls, {written / page:.2f} pages written, {allocations:.2f} allocations')
        print('splice at height 4, pages of 4096: left out, no space has pages for such a tree')
    return 0


sys.exit(main())
