#!/usr/bin/env python3
"""Prints how many lines a second the built program runs, and a world of stored objects in memory beside it.

Usage: bench/lines.py [LINES]      (default: 100000)

Makes a script of LINES lines in which four sessions edit and read objects of some kilobytes. Four times it is run by
two programs, each of which comes first every other time: the one that ./eos builds, which is built first where it is
missing, and crates/bench_world, built by `rt run` in that folder, which has the transactions and the world of every
kind of stored object. Both have to write the same replies. For each the best run is printed, by the clock and by the
time of the processor, which a busy machine disturbs less. The script is the same each time.
"""
import os
import resource
import subprocess
import sys
import tempfile
import time

TOP = os.path.join(os.path.dirname(os.path.abspath(__file__)), '..')
PROGRAM = os.path.join(TOP, 'crates', 'eos_cli', 'out', 'eos_cli')
WORLD = os.path.join(TOP, 'crates', 'bench_world', 'out', 'bench_world')
RUNS = 4
LIMIT = 8192        # an object that grows past this is cut back
SESSIONS = 4


class Draws:
    """A linear congruential generator, so that the script is the same on each machine."""

    def __init__(self, start):
        self.x = start

    def below(self, n):
        self.x = (1664525 * self.x + 1013904223) % 2 ** 32
        return (self.x >> 16) % n


def script(lines):
    """Four sessions, each on eight objects of its own and now and then on one of another's."""
    draws = Draws(1)
    length = {}
    since = {s: None for s in range(1, SESSIONS + 1)}
    out = []
    while len(out) < lines:
        s = 1 + draws.below(SESSIONS)
        if since[s] is None:
            out.append(f'{s} begin')
            since[s] = 0
            continue
        since[s] += 1
        if since[s] > 20:
            out.append(f'{s} commit')
            since[s] = None
            continue
        o = 8 * (s - 1) + draws.below(8)
        if draws.below(50) == 0:
            out.append(f'{s} length {8 * (s % SESSIONS)}')
            continue
        if o not in length:
            out.append(f'{s} create {o}')
            length[o] = 0
            continue
        n = 1 + draws.below(1000)
        at = draws.below(length[o] + 1)
        kind = draws.below(6)
        if length[o] > LIMIT:
            out.append(f'{s} delete {o} 0 {LIMIT // 2}')
            length[o] -= LIMIT // 2
        elif kind < 2:
            out.append(f'{s} append {o} r{n}.{draws.below(65536)}')
            length[o] += n
        elif kind == 2:
            out.append(f'{s} insert {o} {at} r{n}.{draws.below(65536)}')
            length[o] += n
        elif kind == 3:
            n = min(n, length[o] - at)
            out.append(f'{s} replace {o} {at} r{n}.{draws.below(65536)}')
        else:
            n = min(n, length[o] - at)
            out.append(f'{s} read {o} {at} {n}')
    return ('\n'.join(out) + '\n').encode()


def used():
    """The seconds of processor time of all runs so far."""
    usage = resource.getrusage(resource.RUSAGE_CHILDREN)
    return usage.ru_utime + usage.ru_stime


def run(words, text):
    """The seconds that a run takes, those of the processor, and what it writes."""
    begin, used_before = time.perf_counter(), used()
    done = subprocess.run(words, input=text, stdout=subprocess.PIPE, check=True, timeout=600)
    return time.perf_counter() - begin, used() - used_before, done.stdout


def main():
    lines = int(sys.argv[1]) if len(sys.argv) > 1 else 100000
    text = script(lines)
    if not os.path.exists(WORLD):
        print('build crates/bench_world first: rt run in its folder', file=sys.stderr)
        return 1
    with tempfile.TemporaryDirectory() as folder:
        image = os.path.join(folder, 'store.img')
        subprocess.run([os.path.join(TOP, 'eos'), 'script', image], input=b'', check=True)
        programs = {'plain objects': [PROGRAM, 'script', image], 'a world of stored objects': [WORLD]}
        runs = {name: [] for name in programs}
        for turn in range(RUNS):
            for name in sorted(programs, reverse=turn % 2 == 0):
                runs[name].append(run(programs[name], text))
    replies = runs['plain objects'][0][2]
    if replies.count(b'\n') != lines or any(out != replies for taken in runs.values() for _, _, out in taken):
        print('the replies are not the same, or not one a line', file=sys.stderr)
        return 1
    print(f'{lines} lines, {len(text)} bytes in, {len(replies)} bytes out')
    for name, taken in runs.items():
        clock, processor = min(t[0] for t in taken), min(t[1] for t in taken)
        print(f'{name}: {clock:.3f} s, {lines / clock:.0f} lines a second; of the processor {processor:.3f} s')
    return 0


sys.exit(main())
