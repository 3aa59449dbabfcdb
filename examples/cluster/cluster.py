#!/usr/bin/python3
"""Converts documents on the workers of a Dask scheduler, each task a run of rdfconv.

    examples/cluster/cluster.py --scheduler tcp://HOST:8786 documents FOLDER OUT     a folder of documents, one a task
    examples/cluster/cluster.py --scheduler tcp://HOST:8786 dump FILE OUT.nq         N-Triples or N-Quads, by blocks of lines

Formats go by the names' ends (.nt .nq .ttl .trig, in a folder also with .gz after them). FOLDER, FILE, OUT and the program
have to have the same paths on every worker, as on a shared file system. Standard error has each refusal with its place in
the whole document, and a last line of counts.

Status 0: all was accepted. 1: some document was refused. 2: the words are wrong. 3: something can't be read or written, or no
scheduler answers. 4: memory was refused. 128 and a signal's number: this signal ended a run. The greatest that came is told.
"""
import argparse
import contextlib
import gzip
import logging
import os
import re
import shutil
import signal
import subprocess
import sys
import urllib.parse

FORMATS = ('nt', 'nq', 'ttl', 'trig')
RETRIES = 3
COPIED = 1 << 20
SECONDS = 5     # how long a scheduler may take to answer


class Stop(Exception):
    """The end of it all: a status, and what is said."""


def say(text):
    """Writes a line to standard error, where that is open and takes it."""
    with contextlib.suppress(OSError, AttributeError):
        os.write(sys.stderr.fileno(), os.fsencode(text.rstrip('\n') + '\n'))


def feed(process, pieces):
    """Hands the pieces to a process. Answers whether it took them all."""
    try:
        for piece in pieces:
            while piece:
                piece = piece[process.stdin.write(piece):]
        return True
    except BrokenPipeError:  # refused before its end
        return False
    except BaseException:  # what could not be read is no document
        process.kill()
        raise
    finally:
        process.stdin.close()


def failure(words, status, message):
    """Status and message of a run that neither accepted nor refused."""
    status = 128 - status if status < 0 else status
    return status if status > 1 else 3, message or '%s ended with status %d' % (words[0], status)


def run(words, pieces, scratch, out):
    """Runs the program on these pieces of bytes. The output stands under its name only when it is whole, so that a task
    that is run twice writes the same once. Answers the status, the message and how many quads were written."""
    scratch = '%s.%d' % (scratch, os.getpid())
    with open(scratch, 'wb') as lines:
        with subprocess.Popen(words, bufsize=0, stdin=subprocess.PIPE, stdout=lines, stderr=subprocess.PIPE) as process:
            is_taken = feed(process, pieces)
            message = process.stderr.read().decode(errors='backslashreplace')
    status = process.returncode
    if status not in (0, 1) or status == 0 and not is_taken:  # neither accepted nor refused
        os.remove(scratch)
        return failure(words, status, message) + (0,)
    with open(scratch, 'rb') as lines:
        quads = sum(piece.count(b'\n') for piece in iter(lambda: lines.read(COPIED), b''))
    os.replace(scratch, out)
    return status, message, quads


@contextlib.contextmanager
def parts_of(out):
    """The folder of what is not whole yet, beside the output. What a lost worker left there goes with it."""
    parts = out + '.parts'
    try:
        os.makedirs(parts)
    except FileExistsError:
        raise Stop(3, '%s is there, of another run: wait for that, or remove it' % parts)
    try:
        yield parts
    finally:
        shutil.rmtree(parts, ignore_errors=True)


# A folder of documents

def format_of(path):
    """The format that the name's end tells, or None."""
    end = re.search(r'\.(\w+)(\.gz)?$', path)
    return end[1] if end and end[1] in FORMATS else None


def documents_in(folder):
    """The paths of the documents below the folder, from it on."""
    def stop(fault):
        raise fault
    found = (os.path.relpath(os.path.join(at, name), folder) for at, _, names in os.walk(folder, onerror=stop) for name in names)
    return sorted(filter(format_of, found))


def words_of(asked, names):
    """The program's words for each document."""
    digits = max(8, len(str(len(names))))
    for n, name in enumerate(names):
        words = [asked.program, 'convert', '--format', format_of(name)]
        if asked.base is not None:
            words += ['--base=' + asked.base.replace('{}', urllib.parse.quote(os.fsencode(name)))]
        if asked.prefixes is not None:
            words += ['--prefixes=' + os.path.abspath(asked.prefixes)]
        if asked.node_prefix is not None:
            words += ['--node-prefix=%s%0*d' % (asked.node_prefix, digits, n)]
        yield words + ['--ascii'] * asked.ascii


def try_words(words):
    """Hands the program an empty document: so what is wrong with its words is told once, and before any task."""
    tried = subprocess.run(words, stdin=subprocess.DEVNULL, stdout=subprocess.DEVNULL, stderr=subprocess.PIPE)
    if tried.returncode:
        raise Stop(*failure(words, tried.returncode, tried.stderr.decode(errors='backslashreplace')))


def open_document(path):
    if path.endswith('.gz') and not os.path.getsize(path):
        raise EOFError('the packed file is cut off')
    return (gzip.open if path.endswith('.gz') else open)(path, 'rb')


def convert_document(words, folder, name, scratch, out):
    """One task: a whole document."""
    written = os.path.join(out, name + '.nq')
    os.makedirs(os.path.dirname(written), exist_ok=True)
    with open_document(os.path.join(folder, name)) as document:
        return run(words, iter(lambda: document.read(COPIED), b''), scratch, written) + (0,)


def documents(asked):
    folder, out = os.path.abspath(asked.source), os.path.abspath(asked.out)
    if os.path.commonpath([os.path.realpath(folder), os.path.realpath(out)]) == os.path.realpath(folder):
        raise Stop(2, '%s lies in %s: what is written would be read by the next run' % (asked.out, asked.source))
    names = documents_in(folder)
    words = list(words_of(asked, names))
    for first in words[:1]:
        try_words(first)
    with connected(asked.scheduler) as client, parts_of(out) as parts:
        os.makedirs(out, exist_ok=True)
        results = answers(client, [(convert_document, words[n], folder, name, os.path.join(parts, '%08d' % n), out)
                                   for n, name in enumerate(names)])
    for name, (_, message, _, _) in zip(names, results):
        if message:
            say('%s: %s' % (name, message))
    return report('%d documents' % len(names), sum(result[2] for result in results), [result[0] for result in results])


# A dump of a line format

def blocks(path, size):
    """The (start, length) of blocks of about this size, each of whole lines."""
    total, start = os.path.getsize(path), 0
    with open(path, 'rb') as dump:
        while start < total:
            dump.seek(min(start + size, total) - 1)
            dump.readline()
            end = dump.tell()
            yield start, end - start
            start = end


class Block:
    """The bytes of a block, piece by piece, and how many LF were in them. All but the first have an empty line before
    them: a U+FEFF there begins no document."""

    def __init__(self, path, start, length):
        self.path, self.start, self.length, self.line_feeds = path, start, length, 0

    def __iter__(self):
        if self.start:
            yield b'\n'
        with open(self.path, 'rb') as dump:
            dump.seek(self.start)
            left = self.length
            while left:
                piece = dump.read(min(left, COPIED))
                if not piece:
                    raise EOFError('%s became shorter' % self.path)
                left -= len(piece)
                self.line_feeds += piece.count(b'\n')
                yield piece


def convert_block(words, path, start, length, part):
    """One task: a block of lines."""
    block = Block(path, start, length)
    return run(words, block, part, part) + (block.line_feeds,)


def in_whole(message, start, line_feeds):
    """The message with the place in the whole dump, where the block is not its first."""
    place = re.search(r' at byte (\d+), line (\d+)$', message.rstrip('\n'))
    if not place or not start:
        return message
    return '%s at byte %d, line %d\n' % (message[:place.start()], int(place[1]) + start - 1, int(place[2]) + line_feeds - 1)


def copy(part, whole):
    with open(part, 'rb') as lines:
        shutil.copyfileobj(lines, whole, COPIED)


def dump(asked):
    path, out = os.path.abspath(asked.source), os.path.abspath(asked.out)
    form = format_of(path)
    if form not in ('nt', 'nq') or path.endswith('.gz') or os.path.exists(path) and not os.path.isfile(path):
        raise Stop(2, '%s: only a file that ends in .nt or .nq can be cut into blocks' % asked.source)
    if os.path.exists(out) and os.path.samefile(path, out):
        raise Stop(2, '%s is the dump itself' % asked.out)
    size, words = max(1, int(asked.megabytes * 1000000)), [asked.program, 'convert', '--format', form]
    try_words(words)
    with open(path, 'rb'), connected(asked.scheduler) as client, parts_of(out) as parts, open(out, 'wb') as whole:
        cut = [(start, length, os.path.join(parts, '%08d' % n)) for n, (start, length) in enumerate(blocks(path, size))]
        results = answers(client, [(convert_block, words, path, start, length, part) for start, length, part in cut])
        quads = line_feeds = status = 0
        for (start, _, part), (status, message, count, more) in zip(cut, results):
            if status in (0, 1):
                copy(part, whole)
            quads += count
            if status:  # as one run, which stops there
                say(in_whole(message, start, line_feeds))
                break
            line_feeds += more
    return report('1 document, %d blocks' % len(cut), quads, [status])


# The engine

def answers(client, tasks):
    """What the tasks answer, in their order: status, message, quads, and how many LF a block had. The engine runs a task again
    whose worker was lost. An answer is taken as soon as it is there, so that no worker's end loses it."""
    from distributed import as_completed
    waiting = {client.submit(*task, pure=False, retries=RETRIES): n for n, task in enumerate(tasks)}
    found = [None] * len(tasks)
    order = as_completed(list(waiting))
    for future in order:
        n = waiting.pop(future)
        try:
            found[n] = future.result()
        except Exception as error:  # what no retry mended is told as the task's
            found[n] = 3, '%s: %s\n' % (type(error).__name__, error), 0, 0
        future.release()
    return found


@contextlib.contextmanager
def connected(address):
    """A client of the scheduler."""
    try:
        from distributed import Client
    except ImportError as fault:
        raise Stop(3, '%s (Debian: python3-distributed)' % fault)
    logging.disable(logging.CRITICAL)  # a lost worker is no news here: its tasks run again
    try:
        client = Client(address, timeout=SECONDS)
    except (OSError, ValueError) as fault:
        raise Stop(3, 'no scheduler answers at %s' % address) from fault
    with client:
        if not client.scheduler_info()['workers']:
            say('cluster: the scheduler at %s has no workers yet' % address)
        yield client


def report(what, quads, statuses):
    """The last line, and the greatest status."""
    refused, failed = sum(it == 1 for it in statuses), sum(it > 1 for it in statuses)
    say('%s, %d quads, %d refused%s' % (what, quads, refused, ', %d failed' % failed if failed else ''))
    return max(statuses, default=0)


def megabytes(word):
    if not 0 < float(word) < 1e9:
        raise ValueError
    return float(word)


def main():
    parser = argparse.ArgumentParser(prog='cluster', description=__doc__, formatter_class=argparse.RawDescriptionHelpFormatter)
    parser.add_argument('--scheduler', required=True, metavar='ADDRESS')
    parser.add_argument('--program', default=shutil.which('rdfconv') or 'rdfconv', metavar='PATH')
    parser.add_argument('--megabytes', type=megabytes, default=64, metavar='N', help='dump: about the size of a block (64)')
    parser.add_argument('--base', metavar='IRI', help="documents: {} stands for the document's path from FOLDER on, percent-encoded")
    parser.add_argument('--prefixes', metavar='FILE', help='documents: bindings before each document')
    parser.add_argument('--node-prefix', metavar='WORD', help="documents: each one's names of nodes get WORD and eight digits in front")
    parser.add_argument('--ascii', action='store_true', help='documents: ASCII alone')
    parser.add_argument('what', choices=['documents', 'dump'])
    parser.add_argument('source', metavar='FOLDER|FILE')
    parser.add_argument('out', metavar='OUT')
    asked = parser.parse_args()
    if asked.what == 'dump' and (asked.ascii or [asked.base, asked.prefixes, asked.node_prefix] != [None] * 3):
        parser.error('--base, --prefixes, --node-prefix and --ascii are for documents')
    signal.signal(signal.SIGTERM, signal.default_int_handler)
    try:
        return (documents if asked.what == 'documents' else dump)(asked)
    except Stop as stop:
        status, text = stop.args
    except OSError as fault:
        status, text = 3, '%s: %s' % (fault.filename or asked.out, fault.strerror or fault)
    except KeyboardInterrupt:
        status, text = 130, 'interrupted'
    say('cluster: ' + text)
    return status


if __name__ == '__main__':
    sys.exit(main())
