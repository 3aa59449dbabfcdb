#!/usr/bin/env python3
"""Prints where `rdfconv convert` takes more time than its instructions take on average: the places of branches that are predicted wrong, and of
loads that wait.

    bench/stalls.py KIND [PLACES]     KIND as in documents.py; 20 places

Counts each instruction on 2 MB by callgrind, takes samples of 100 MB on the processor's clock (Debian: valgrind, linux-perf), and sets both against
each other, block by block. A block is what runs from one jump, or target of one, to the next. It needs no counters of the processor, but a
machine with nothing else to do. A sample falls on the instruction that waits, or on the one after it; so a branch that is predicted wrong
shows at its target, at some 20 cycles each time.
"""
import collections
import os
import re
import subprocess
import sys
import tempfile

import documents

TOP = os.path.dirname(os.path.dirname(os.path.abspath(__file__)))
PROGRAM = os.path.join(TOP, 'crates', 'rdf_tool', 'out', 'rdf_tool')
COUNTED, SAMPLED = 2, 100
RUNS = 3
# What runs less often than this for the counted document is not listed.
LEAST = 5000


def counts(words, path, folder):
    """How often each instruction of the program runs, by its address in the file."""
    profile = os.path.join(folder, 'profile')
    counted = ['valgrind', '--quiet', '--tool=callgrind', '--dump-instr=yes', '--callgrind-out-file=' + profile]
    with open(path, 'rb') as f:
        subprocess.run(counted + words, stdin=f, stdout=subprocess.DEVNULL, check=True)
    found, names, ours, at, of_call = collections.Counter(), {}, False, 0, False
    for line in open(profile):
        named = re.match(r'(c?)ob=\((\d+)\) *(.*)', line)
        placed = re.match(r'(0x[0-9a-f]+|[+-]\d+|\*) ', line)
        if named:
            names[named.group(2)] = named.group(3) or names[named.group(2)]
            if not named.group(1):
                ours = names[named.group(2)] == os.path.abspath(PROGRAM)
        elif line.startswith('calls='):
            of_call = True
        elif placed:
            place = placed.group(1)
            at = int(place, 16) if place.startswith('0x') else at + (0 if place == '*' else int(place))
            if ours and not of_call:
                found[at] += int(line.split()[-1])
            of_call = False
    return found


def samples(words, path, folder):
    """How many samples fall on each instruction of the program, by its address in the file."""
    data, found = os.path.join(folder, 'samples'), collections.Counter()
    for _ in range(RUNS):
        with open(path, 'rb') as f:
            subprocess.run(['perf', 'record', '-q', '-e', 'cpu-clock', '-F', '20000', '-o', data] + words, stdin=f, stdout=subprocess.DEVNULL, check=True)
        listed = subprocess.run(['perf', 'script', '-i', data, '-F', 'ip,dso', '--show-mmap-events'], stdout=subprocess.PIPE, check=True).stdout.decode()
        maps = []
        for line in listed.splitlines():
            mapped = re.search(r'MMAP2 .*\[0x([0-9a-f]+)\(0x([0-9a-f]+)\) @ (?:0x)?([0-9a-f]+) .*: r-xp (\S+)', line)
            sampled = re.match(r' *([0-9a-f]+) ', line)
            if mapped and mapped.group(4) == os.path.abspath(PROGRAM):
                maps.append([int(n, 16) for n in mapped.groups()[:3]])
            elif sampled and not mapped:
                place = int(sampled.group(1), 16)
                found.update(place - start + offset for start, size, offset in maps if start <= place < start + size)
    segments = re.findall(r'LOAD +0x(\w+) 0x(\w+) \S+ 0x(\w+)', subprocess.run(['readelf', '-lW', PROGRAM], stdout=subprocess.PIPE, check=True).stdout.decode())
    moved = collections.Counter()
    for place, number in found.items():
        for offset, address, size in [[int(n, 16) for n in it] for it in segments]:
            if offset <= place < offset + size:
                moved[place - offset + address] += number
    return moved


def blocks(run):
    """The program's blocks: the function, and each instruction with its address."""
    listed = subprocess.run(['objdump', '-d', '--no-show-raw-insn', PROGRAM], stdout=subprocess.PIPE, check=True).stdout.decode()
    block, function = [], ''
    for line in listed.splitlines():
        named = re.match(r'[0-9a-f]+ <(.*)>:', line)
        placed = re.match(r' *([0-9a-f]+):\t(.*)', line)
        if named or placed and block and run[int(placed.group(1), 16)] != run[block[0][0]]:
            yield function, block
            block = []
        if named:
            function = re.sub(r'::<#\w+>', '', named.group(1))
        elif placed:
            block.append((int(placed.group(1), 16), placed.group(2)))
            if re.match(r'j|call|ret', placed.group(2)):
                yield function, block
                block = []
    yield function, block


def main():
    kind, places = sys.argv[1], int(sys.argv[2]) if len(sys.argv) > 2 else 20
    document = documents.DOCUMENTS[kind]
    words = [PROGRAM, 'convert', '--format', document.format] + document.options
    with tempfile.TemporaryDirectory() as folder:
        path = os.path.join(folder, 'document')
        documents.write(kind, COUNTED, path)
        run = counts(words, path, folder)
        documents.write(kind, SAMPLED, path)
        seen = samples(words, path, folder)
    all_seen, average = sum(seen.values()), sum(seen.values()) / sum(run.values())
    found = []
    for function, block in blocks(run):
        often = run[block[0][0]] if block else 0
        if often >= LEAST:
            taken = sum(seen[place] for place, _ in block)
            found.append((taken - average * often * len(block), taken, often, function, block))
    print('%s: %d samples; beyond the average, all, times run, instructions, the first of them, function' % (document.name, all_seen))
    for beyond, taken, often, function, block in sorted(found, key=lambda it: -it[0])[:places]:
        print('%5.2f %%  %5.2f %%  %7d  %3d  %x %-44s %s' % (100 * beyond / all_seen, 100 * taken / all_seen, often, len(block), block[0][0], block[0][1][:44], function[:60]))


if __name__ == '__main__':
    if '--help' in sys.argv[1:]:
        print(__doc__.strip())
        sys.exit()
    main()
