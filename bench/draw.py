#!/usr/bin/python3
"""Draws the figures that `bench/rdfconv.py --json FIGURES`, `bench/readers.py --json FIGURES` or `bench/held.py FIGURES` wrote, as SVG.
Debian: python3-matplotlib.

    bench/draw.py FIGURES FOLDER

Of the first, FOLDER/speed.svg: MB/s of `convert` and `check` by kind of document, at the largest size, `cat` and `wc -l` left out, and
FOLDER/growth.svg: how time and memory of `convert` grow from the first size to the last. Of the second, FOLDER/readers.svg: instructions
for a byte, or MB/s, of `convert` and of other readers by kind of document. Of the third, FOLDER/held.svg: the memory that `convert` held
beside the bound that is proved of the texts.
"""
import json
import os
import sys

import matplotlib

matplotlib.use('svg')
matplotlib.rcParams['svg.hashsalt'] = 'rdfconv'  # the same figures give the same bytes
from matplotlib import pyplot

COMMANDS = ['convert', 'check']
SHADES = ['#1f4e79', '#9dc3e6']


def save(figure, path):
    figure.tight_layout()
    figure.savefig(path, metadata={'Date': None})
    pyplot.close(figure)


def speed(figures, path):
    """A pair of bars for each kind of document."""
    kinds = list(figures)[::-1]
    figure, axes = pyplot.subplots(figsize=(8, 0.5 * len(kinds) + 1.4))
    for n, (command, shade) in enumerate(zip(COMMANDS, SHADES)):
        rates = [figures[kind][-1]['bytes'] / figures[kind][-1]['columns'][command]['seconds'] / 1e6 for kind in kinds]
        places = [at + 0.2 - 0.4 * n for at in range(len(kinds))]
        axes.bar_label(axes.barh(places, rates, 0.38, color=shade, label=command), fmt='%.0f', padding=2)
    axes.set_yticks(range(len(kinds)), ['%s, %.0f MB' % (kind, figures[kind][-1]['bytes'] / 1e6) for kind in kinds])
    axes.set_xlabel('MB/s of the input, best of the runs')
    axes.margins(x=0.1)
    axes.legend()
    save(figure, path)


def growth(figures, path):
    """Time beside size, and memory beside size, a line for each kind of document."""
    figure, (time, memory) = pyplot.subplots(1, 2, figsize=(12, 5), sharex=True)
    for kind, sizes in figures.items():
        bytes_read = [one['bytes'] / 1e6 for one in sizes]
        time.plot(bytes_read, [one['columns']['convert']['seconds'] for one in sizes], marker='o', label=kind)
        memory.plot(bytes_read, [one['columns']['convert']['kilobytes'] / 1024 for one in sizes], marker='o', label=kind)
    for axes, label in ((time, 'seconds'), (memory, 'MiB held at most')):
        axes.set(xscale='log', yscale='log', xlabel='MB of the document', ylabel=label + ' of convert')
        axes.set_xticks(bytes_read, ['%.0f' % it for it in bytes_read])
        axes.minorticks_off()
    memory.legend(fontsize='small', loc='upper left', bbox_to_anchor=(1.02, 1))
    save(figure, path)


def readers(figures, path):
    """A bar for each reader and kind of document."""
    is_count = 'instructions' in next(iter(figures.values()))
    names = ['convert', 'serdi', 'rapper']
    kinds = list(figures)[::-1]
    figure, axes = pyplot.subplots(figsize=(8, 0.5 * len(kinds) + 1.4))
    for n, (name, shade) in enumerate(zip(names, SHADES + ['#c9c9c9'])):
        found = [figures[kind]['instructions' if is_count else 'seconds'].get(name, 0) for kind in kinds]
        sizes = [figures[kind]['bytes'] / 1e6 for kind in kinds]
        values = [it / size if is_count else size / it if it else 0 for it, size in zip(found, sizes)]
        places = [at + 0.27 - 0.27 * n for at in range(len(kinds))]
        axes.bar_label(axes.barh(places, values, 0.26, color=shade, label=name), fmt='%.0f', padding=2, fontsize='small')
    axes.set_yticks(range(len(kinds)), kinds)
    axes.set_xlabel('instructions for a byte of the document, fewer are better' if is_count else 'MB/s of the input')
    axes.set_xscale('log')
    axes.margins(x=0.1)
    axes.legend()
    save(figure, path)


def held(figures, path):
    """The bound and what was held, a line each, by the size of the document."""
    figure, axes = pyplot.subplots(figsize=(7, 4.5))
    figures = sorted(figures, key=lambda one: one['document'])
    sizes = [one['document'] / 2**20 for one in figures]
    axes.plot(sizes, [one['bound'] / 2**20 for one in figures], marker='o', color=SHADES[1], label='bound of the texts, proved')
    axes.plot(sizes, [one['kilobytes'] / 1024 for one in figures], marker='o', color=SHADES[0], label='held by the process, code included')
    axes.set(xscale='log', yscale='log', xlabel='MiB of a document that is held to its end', ylabel='MiB')
    axes.legend()
    save(figure, path)


def main():
    if len(sys.argv) != 3:
        sys.exit(__doc__)
    with open(sys.argv[1]) as f:
        figures = json.load(f)
    os.makedirs(sys.argv[2], exist_ok=True)
    if 'held' in figures:
        held(figures['held'], os.path.join(sys.argv[2], 'held.svg'))
        return
    if all(isinstance(one, dict) for one in figures.values()):
        readers(figures, os.path.join(sys.argv[2], 'readers.svg'))
        return
    speed(figures, os.path.join(sys.argv[2], 'speed.svg'))
    growth(figures, os.path.join(sys.argv[2], 'growth.svg'))


if __name__ == '__main__':
    main()
