#!/usr/bin/env python3
"""Runs `rdfconv` on documents that are made to take long, at 1, 2, 4 and 8 times a size, and fails where 8 times the size takes
more than 10 times as long.

    bench/hostile.py [--instructions] [KILOBYTES] [WORD..]     (250, and 100 where instructions are counted)

For each shape and each of `convert`, `check` and `show`: the seconds of processor time at each size (the best of three runs), and
how many times as long the last takes as the first. Times below a hundredth of a second are taken as one. With --instructions it is
the millions of instructions by callgrind, of one run at each size, which are the same on a busy machine; fewer than one million are taken as one. The shapes "byte by byte"
have a tenth of the size, and are one token of just as many characters as the limit on tokens, given in pieces of one byte. Those
"in runs of the limit" have a size of their own. With words, only the shapes whose names have one of them. `rt ci` or `rt run` in
crates/rdf_tool builds the program.
"""
import os
import socket
import sys
import tempfile
import threading

import runs

TOP = os.path.dirname(os.path.dirname(os.path.abspath(__file__)))
PROGRAM = os.environ.get("RDFCONV", os.path.join(TOP, "crates", "rdf_tool", "out", "rdf_tool"))

MOST_GROWTH = 10
LEAST_SECONDS = 0.01
LEAST_MILLIONS = 1
SCALES = (1, 2, 4, 8)

HEAD = '<http://a/s> <http://a/p> '


def item(text):
    """A shape within a collection: what comes again and again, without white space between."""
    return lambda size: HEAD + '(' + text * (size // len(text)) + ') .\n'


def again(text):
    """A shape of the same text again and again."""
    return lambda size: text * (size // len(text))


def within(begin, text, end):
    """A shape of one long token."""
    return lambda size: HEAD + begin + text * (size // len(text.encode())) + end + ' .\n'


# Each shape by its name: what makes a document of so many bytes.
SHAPES = {
    'keywords': item('true'),
    'two keywords': item('truefalse'),
    'keywords and numbers': item('true1false2.5'),
    'keywords, then a letter from 128 on': lambda size: HEAD + '(' + 'true' * (size // 4) + 'é) .\n',
    'keywords to the end': lambda size: HEAD + '(' + 'true' * (size // 4),
    'verbs and dots': again('a.'),
    'verbs and dots before a space': lambda size: 'a.' * (size // 2) + ' ',
    'letters': again('a'),
    'numbers and dots': item('1.1.'),
    'exponents without digits': again('1e'),
    'signs': again('+-'),
    'dots': again('.'),
    'SPARQL directives': again('PREFIX'),
    'directives': again('@prefix'),
    'a directive and hyphens': again('@prefix-'),
    'a base that grows': lambda size: 'BASE <http://a/>\n' + 'BASE <a/>\n' * (size // 10),
    'double quotes': again('"'),
    'single quotes': again("'"),
    'empty strings': item('"" '),
    'quotes of two kinds': again('"\''),
    'carets': again('^^'),
    'angle brackets': again('<'),
    'tags of three parts': item('"a"@a-b-c '),
    'one tag': within('"a"@', 'a', ''),
    'one tag of many parts': within('"a"@a', '-b', ''),
    'labels and dots': again('_:a..'),
    'names and dots': again('x:a..'),
    'percents': again('x:%4'),
    'backslashes': again('x:\\'),
    'opening brackets': again('['),
    'commas': lambda size: HEAD + '1' + ',1' * (size // 2) + ' .\n',
    'comments': again('#\n'),
    'spaces': again(' '),
    'one string': within('"', 'a', '"'),
    'one string of emoji': within('"', '\U0001F600', '"'),
    'one string of escapes': within('"', '\\n', '"'),
    'one IRI of escapes': within('<http://a/', '\\u00E9', '>'),
    'one long string of quotes': within('"""', 'a""', 'a"""'),
    'one string without its end': lambda size: HEAD + '"' + 'a' * size,
}

# The same in sixty-four runs, each of as many characters as the limit on tokens, which is less than a piece: what comes again and
# again, and how often a run has it at the greatest scale.
IN_RUNS = {
    'keywords in runs of the limit': ('true', 15000),
    'keywords and numbers in runs of the limit': ('true1false2.5', 4600),
}

# The same of characters of several bytes: what begins the token, the character, and what ends it.
BYTE_BY_BYTE = {
    'a string of emoji byte by byte': ('"', '\U0001F600', '"'),
    'a long string byte by byte': ('"""', '\u00E9', '"""'),
    'an IRI byte by byte': ('<http://a/', '\u6F22', '>'),
    'a label byte by byte': ('_:', '\u0434', ''),
    'a name byte by byte': ('p:', '\u6F22', ''),
}


def seconds(words, stdin):
    """The processor time of a run in the program itself, and that with the time in the system."""
    _, user, system = runs.processor_seconds([PROGRAM] + words, stdin)
    return user, user + system


def millions(words, stdin):
    """Millions of instructions of a run, which has none in the system."""
    _, count = runs.instructions([PROGRAM] + words, stdin)
    return count, count


def best_of(measure, words, path):
    """The best of the runs over a file."""
    best = []
    for _ in range(3 if measure is seconds else 1):
        with open(path, 'rb') as f:
            best.append(measure(words, f)[1])
    return min(best)


def growth_of_shape(measure, action, shape, size, path):
    """What a shape takes at each scale."""
    found = []
    for scale in SCALES:
        with open(path, 'w') as f:
            f.write(shape(size * scale))
        found.append(best_of(measure, [action], path))
    return found


def growth_of_runs(measure, action, shape, path):
    """What runs take that grow with each scale."""
    word, most = shape
    found = []
    for scale in SCALES:
        run = word * (most * scale // SCALES[-1])
        with open(path, 'w') as f:
            f.write(HEAD + '(' + (run + ' ') * 64 + ') .\n')
        found.append(best_of(measure, [action, '--token', str(len(run))], path))
    return found


def send_bytes(end, text):
    """Sends each byte in a message of its own: a read takes one message."""
    try:
        for byte in text:
            end.send(bytes([byte]))
    except OSError:
        pass
    end.close()


def growth_of_bytes(measure, action, shape, size):
    """What a token takes at each scale that comes byte by byte, without the time in the system."""
    begin, character, end = shape
    found = []
    for scale in SCALES:
        token = begin + character * (size * scale // 10 // len(character.encode())) + end
        text = ('PREFIX p: <http://a/> ' + HEAD + token + ' .\n').encode()
        limits = ['--token', str(len(token)), '--iri', str(len(text))]
        best = []
        for _ in range(3 if measure is seconds else 1):
            ours, theirs = socket.socketpair(socket.AF_UNIX, socket.SOCK_SEQPACKET)
            sender = threading.Thread(target=send_bytes, args=(ours, text))
            sender.start()
            best.append(measure([action] + limits, theirs)[0])
            theirs.close()
            sender.join()
        found.append(min(best))
    return found


def main():
    words = sys.argv[1:]
    counts = '--instructions' in words
    words = [word for word in words if word != '--instructions']
    measure, least = (millions, LEAST_MILLIONS) if counts else (seconds, LEAST_SECONDS)
    size = 1000 * (int(words.pop(0)) if words and words[0].isdigit() else 100 if counts else 250)
    worst = 0
    with tempfile.TemporaryDirectory() as folder:
        path = os.path.join(folder, 'document')
        for name in list(SHAPES) + list(IN_RUNS) + list(BYTE_BY_BYTE):
            if words and not any(word in name for word in words):
                continue
            for action in ('convert', 'check', 'show'):
                if name in SHAPES:
                    found = growth_of_shape(measure, action, SHAPES[name], size, path)
                elif name in IN_RUNS:
                    found = growth_of_runs(measure, action, IN_RUNS[name], path)
                else:
                    found = growth_of_bytes(measure, action, BYTE_BY_BYTE[name], size)
                growth = max(found[-1], least) / max(found[0], least)
                worst = max(worst, growth)
                print('%-40s %-8s %s   times %.1f' % (name, action, ' '.join('%.3f' % each for each in found), growth))
                sys.stdout.flush()
    print('the greatest growth: %.1f' % worst)
    sys.exit(worst > MOST_GROWTH)


main()
