#!/usr/bin/env python3
"""Shows the place of a refusal: its line, with a caret under the byte.

    examples/where.py FILE 'rdfconv: no token at byte 26, line 1'
    rdfconv check FILE 2>&1 | examples/where.py FILE
    grep '^# ' BADLINES | examples/where.py FILE            # of a run with --skip BADLINES

Without a message on the command line, messages are read from standard input, and each line is answered when it comes. A message with
no place, such as `accepted, ..` or `rdfconv: bad base`, is passed on as it is. Of a long line, what stands near the byte is shown.
FILE may be packed (.gz, .bz2, .xz): the byte is one of the document in it.

Status 0: each message was `accepted, ..`. 1: some message was another. 2: the words are wrong, or there was no message. 3: FILE can't
be read or has no such byte (the message is passed on then), or standard input can't be read, or the output written.
"""
import bz2
import codecs
import contextlib
import gzip
import lzma
import os
import re
import signal
import sys
import unicodedata
import zlib

OPENERS = {'.gz': gzip.open, '.bz2': bz2.open, '.xz': lzma.open}
PLACE = re.compile(r'(?:# |[^<"]*\brdfconv: )?([\w -]+) at byte (\d+), line (\d+)$')
ACCEPTED = re.compile(r'(?:[^<"]*[\t ])?accepted, \d+ quads?, \d+ bytes?$')
REACH = 240
MOST_COLUMNS = 60
PIECE = 65536


def line_start(file, offset):
    """Where the line of this byte begins, looking backwards."""
    while offset:
        begin = max(0, offset - PIECE)
        file.seek(begin)
        found = file.read(offset - begin).rfind(b'\n')
        if found >= 0:
            return begin + found + 1
        offset = begin
    return 0


def near(file, begin, offset):
    """How many characters of the line stand before the byte, and the bytes near it, before and after."""
    file.seek(begin)
    count, before, left = 0, b'', offset - begin
    while left:
        piece = file.read(min(left, PIECE))
        if not piece:
            return None
        left -= len(piece)
        cut = piece.rfind(b'\n') + 1
        if cut:
            count, before = 0, b''
        count += sum(byte & 0xC0 != 0x80 for byte in piece[cut:])
        before = (before + piece[cut:])[-REACH:]
    return count, before, file.read(REACH).split(b'\n')[0]


def shown(text):
    """The text as it is printed: a control character by its escape, a tab as a space."""
    return ''.join(' ' if c == '\t' else repr(c)[1:-1] if unicodedata.category(c) in ('Cc', 'Cf') else c for c in text)


def columns(text):
    """How many columns of a terminal the text takes."""
    return sum(0 if unicodedata.combining(c) else 2 if unicodedata.east_asian_width(c) in 'WF' else 1 for c in text)


def text_of(data, is_cut):
    """The characters of these bytes; those that are no UTF-8 by their numbers, and at a cut nothing of half a character."""
    return shown(codecs.getincrementaldecoder('utf-8')('backslashreplace').decode(data, not is_cut))


def place(count, before, after):
    """The line near the byte, and the caret under it."""
    is_cut = len(before) < REACH
    front = text_of(before if is_cut else before.lstrip(bytes(range(0x80, 0xC0))), False)
    back = text_of(after, len(after) == REACH)
    left = '' if is_cut else '…'
    while columns(front) > MOST_COLUMNS:
        front, left = front[1:], '…'
    right = '…' if len(after) == REACH else ''
    while columns(back) > MOST_COLUMNS:
        back, right = back[:-1], '…'
    return left + front + back + right + '\n' + ' ' * columns(left + front) + '^'


def shown_place(name, reason, offset, line):
    """The place in the file, or None where it has no such byte."""
    opener = OPENERS.get(os.path.splitext(name)[1])
    with (opener or open)(name, 'rb') as file:
        seen = near(file, 0 if opener else line_start(file, offset), offset)
    return seen and '%s:%s:%d: %s\n%s' % (name, line, seen[0] + 1, reason, place(*seen))


def answer(name, message):
    """What is said to a message, on standard output and standard error, and the status."""
    found = PLACE.match(message)
    if not found:
        return message, '', 0 if ACCEPTED.match(message) else 1
    try:
        text = shown_place(name, found[1], int(found[2]), found[3])
    except (OSError, EOFError, zlib.error, lzma.LZMAError) as fault:
        return message, 'where: %s: %s' % (name, getattr(fault, 'strerror', None) or fault), 3
    return (text, '', 1) if text else (message, 'where: %s has no byte %s' % (name, found[2]), 3)


def put(descriptor, text):
    """Writes a line there. The bytes of a name or a message that are no UTF-8 stay as they were."""
    data = (text + '\n').encode('utf-8', 'surrogateescape')
    while data:
        data = data[os.write(descriptor, data):]


def messages(words):
    """The messages, each as soon as it is there."""
    for message in words or open(0, encoding='utf-8', errors='surrogateescape', newline='\n', closefd=False):
        yield from filter(None, message.split('\n'))


def answer_all(name, words):
    """The greatest status."""
    statuses = []
    for message in messages(words):
        output, error, status = answer(name, message)
        put(1, output)
        if error:
            put(2, error)
        statuses.append(status)
    if not statuses:
        put(2, 'where: no message')
    return max(statuses, default=2)


def main():
    signal.signal(signal.SIGINT, signal.SIG_DFL)
    try:
        if sys.argv[1:] == ['--help']:
            put(1, __doc__.rstrip())
            return 0
        if len(sys.argv) not in (2, 3):
            put(2, __doc__.rstrip())
            return 2
        return answer_all(sys.argv[1], sys.argv[2:])
    except OSError as fault:
        with contextlib.suppress(OSError):
            put(2, 'where: standard input or output: %s' % fault.strerror)
        return 3


if __name__ == '__main__':
    sys.exit(main())
