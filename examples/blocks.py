#!/usr/bin/env python3
"""Converts a dump of N-Triples or N-Quads block by block on all processors, as one run would: the same output, and where a line is
refused the same message, with its byte and line in the whole dump, and the same status.

    examples/blocks.py FILE [BLOCK] [--program PATH]

FILE's name ends in .nt or .nq. BLOCK is about how many bytes a block has (64M; k m g are powers of 1000, K M G of 1024). The lines of
two blocks for each processor wait for their turn in files without a name in TMPDIR; `rdfconv: write failed` is told of these.

Status 0 and 1 as of one run. 2: the words are wrong. 3: FILE can't be read, or the output or a file in TMPDIR can't be written. 4: memory
was refused. 127: rdfconv could not be started. 128 and a signal's number: this signal ended it.

Each block but the first begins at the LF that ends the one before: so it is no start of a document, where a U+FEFF would be passed over.
"""
import argparse
import collections
import concurrent.futures
import contextlib
import mmap
import os
import re
import signal
import stat
import subprocess
import sys
import tempfile

UNITS = {'': 1, 'k': 10 ** 3, 'm': 10 ** 6, 'g': 10 ** 9, 'K': 2 ** 10, 'M': 2 ** 20, 'G': 2 ** 30}
PLACE = re.compile(rb'(.*) at byte (\d+), line (\d+)\n')
PIECE = 1 << 20


class Stop(Exception):
    """The end of it all: a status, and what is said."""


@contextlib.contextmanager
def stops_at(what, status=3):
    """Where reading, writing or starting fails in here, that is the end."""
    try:
        yield
    except OSError as fault:
        raise Stop(status, '%s: %s' % (what, fault.strerror or fault))


def say(data):
    """Writes to standard error, where that is open and takes it."""
    with contextlib.suppress(OSError, AttributeError):
        os.write(sys.stderr.fileno(), data)


def size_of(word):
    """The number of bytes of such a word as 64M."""
    found = re.fullmatch(r'([1-9]\d*)([kmgKMG]?)', word)
    if not found:
        raise argparse.ArgumentTypeError('no such size as 64M: ' + word)
    return int(found[1]) * UNITS[found[2]]


# One block

def send(dump, pipe, begin, end):
    """Hands these bytes of the dump to the pipe. Answers whether they were all taken."""
    while begin < end:
        try:
            count = os.sendfile(pipe, dump, begin, end - begin)
        except BrokenPipeError:  # refused before its end
            return False
        if not count:
            raise OSError('the dump became shorter')
        begin += count
    return True


def run(asked, form, dump, begin, end):
    """Converts these bytes of the dump. Answers the status, the message, and a file with the lines."""
    with stops_at('a file in TMPDIR'):
        lines = tempfile.TemporaryFile(buffering=0)
    with stops_at(asked.program, 127):
        words = [asked.program, 'convert', '--format', form]
        process = subprocess.Popen(words, bufsize=0, stdin=subprocess.PIPE, stdout=lines, stderr=subprocess.PIPE)
    with process:
        with stops_at(asked.file):
            is_taken = send(dump, process.stdin.fileno(), begin, end)
        process.stdin.close()
        message = process.stderr.read()
    status = process.returncode
    if status == 0 and not is_taken:
        raise Stop(3, '%s did not read to the end, and ended with status 0' % asked.program)
    return 128 - status if status < 0 else status, message, lines


# All blocks

def blocks(text, size):
    """Where each block begins and ends."""
    begin, after = 0, 0
    while after < len(text):
        end = text.find(b'\n', min(after + size, len(text)) - 1) + 1 or len(text)
        yield begin, end
        begin, after = end - 1, end


def answers(asked, form, dump, text):
    """What the runs answer, in the order of their blocks, each with where its block begins."""
    jobs = len(os.sched_getaffinity(0))
    pool, waiting = concurrent.futures.ThreadPoolExecutor(jobs), collections.deque()
    try:
        for begin, end in blocks(text, asked.block):
            waiting.append((begin, pool.submit(run, asked, form, dump, begin, end)))
            if len(waiting) == 2 * jobs:
                first, answer = waiting.popleft()
                yield (first, *answer.result())
        for first, answer in waiting:
            yield (first, *answer.result())
    finally:
        pool.shutdown(cancel_futures=True)


def copy(lines):
    """Writes them to standard output."""
    lines.seek(0)
    while piece := lines.read(PIECE):
        while piece:
            piece = piece[os.write(1, piece):]


def in_whole(message, text, begin):
    """The message with the place in the whole dump."""
    place = PLACE.fullmatch(message)
    if not place:
        return message
    feeds = sum(text[at:min(at + PIECE, begin)].count(b'\n') for at in range(0, begin, PIECE))
    return b'%s at byte %d, line %d\n' % (place[1], begin + int(place[2]), feeds + int(place[3]))


def convert(asked):
    """The status of the first run that has another than 0, and 0 where none has. What stands behind it is left out."""
    name = re.search(r'\.(nt|nq)$', asked.file)
    if not name:
        raise Stop(2, '%s is no .nt or .nq' % asked.file)
    with stops_at('standard output'):
        os.fstat(1)
    with stops_at(asked.file):
        dump = os.open(asked.file, os.O_RDONLY)
        about = os.fstat(dump)
        if not stat.S_ISREG(about.st_mode):
            raise OSError('no file that can be cut')
        text = mmap.mmap(dump, 0, access=mmap.ACCESS_READ) if about.st_size else b''
    for begin, status, message, lines in answers(asked, name[1], dump, text):
        with stops_at('standard output'), lines:
            copy(lines)
        say(in_whole(message, text, begin))
        if status and not message:
            raise Stop(status, '%s ended with status %d' % (asked.program, status))
        if status:
            return status
    return 0


def main():
    signal.signal(signal.SIGINT, signal.SIG_DFL)
    parser = argparse.ArgumentParser(prog='blocks', description=__doc__, formatter_class=argparse.RawDescriptionHelpFormatter)
    parser.add_argument('file', metavar='FILE')
    parser.add_argument('block', metavar='BLOCK', nargs='?', type=size_of, default='64M')
    parser.add_argument('--program', default='rdfconv', metavar='PATH')
    try:
        return convert(parser.parse_args())
    except Stop as stop:
        status, text = stop.args
    except MemoryError:
        status, text = 4, 'out of memory'
    say(b'blocks: %s\n' % os.fsencode(text))
    return status


if __name__ == '__main__':
    sys.exit(main())
