#!/usr/bin/env python3
"""compare.py PROGRAM FILE..: what the library answers from C, C++ and Python for each file, and for documents made here, beside the
program's bytes, message and status. Then how Python takes its arguments, and what header and library show. The last line counts."""
import inspect
import os
import pickle
import re
import resource
import shutil
import subprocess
import sys
import tempfile

try:
    import rdfconv
except ImportError as error:
    sys.exit(f'compare: {error}')

HERE = os.path.dirname(os.path.abspath(__file__))
BASE = 'http://example.org/x/y'
MADE = {
    'none.nt': b'',
    'no_dot.nt': b'<a:s> <a:p> <a:o>',
    'bad_utf8.nt': b'<a:s> <a:p> "\xff" .\n',
    'bad_escape.nt': b'<a:s> <a:p> "\\q" .\n',
    'unbound.ttl': b'<a:s> <a:p> <a:o> .\nx:y <a:p> 1 .\n',
    'no_base.ttl': b'<s> <p> <o> .\n',
    'deep.ttl': b'<a:s> <a:p> ' + b'[ <a:p> ' * 1100,
    'long_lines.ttl': b'@prefix p: <http://example.org/' + b'a' * 100000 + b'/> . p:a p:b ' + b','.join([b'p:c'] * 50) + b' .\n',
    'based.ttl': b'<a> <../b> <#c> .\n',
}


# The prefixes that are handed in: none, some, and a file whose second line is refused.
PREFIXES = {'-': b'', 'bound.txt': b'x: http://example.org/x/\n', 'bad.txt': b'x: http://example.org/x/\nx <a:b>\n'}


# How the lines are written: whether in ASCII, and the word in front of the names of nodes.
FORMS = (False, ''), (True, ''), (False, 'a1')


# A document that shows base, prefixes and word, and its lines.
ALL = '<s> ex:p [] , "é" .\n'
LINES = '<a:/s> <http://a/p> _:wa9 .\n<a:/s> <http://a/p> "é" .\n'.encode()


# What Python is not to take, and what it says.
REFUSED = [
    (dict(document=None), TypeError, 'document is of type NoneType, not str, bytes, bytearray or memoryview'),
    (dict(base=1), TypeError, 'base is of type int, not str, bytes, bytearray or memoryview'),
    (dict(prefixes=['x: a:b']), TypeError, 'prefixes is of type list, not str, bytes, bytearray or memoryview'),
    (dict(prefixes={'x': b'a:b'}), TypeError, "prefixes has b'a:b', which is of type bytes, not str"),
    (dict(word=2.5), TypeError, 'word is of type float, not str, bytes, bytearray or memoryview'),
    (dict(format=3), TypeError, 'format is of type int, not str'),
    (dict(token='9'), TypeError, 'token is of type str, not int'),
    (dict(limit=9), TypeError, "convert() got an unexpected keyword argument 'limit'"),
    (dict(format='turtle'), ValueError, "format is 'turtle', not one of nt, nq, ttl, trig"),
    (dict(token=0), ValueError, 'token is 0, not 1 to 268435456'),
    (dict(depth=1048577), ValueError, 'depth is 1048577, not 0 to 1048576'),
    (dict(bindings=-1), ValueError, 'bindings is -1, not 0 to 16777216'),
    (dict(iri=1 << 64), ValueError, 'iri is 18446744073709551616, not 1 to 268435456'),
    (dict(ascii=2), ValueError, 'ascii is 2, not False or True'),
    (dict(word='a_b'), ValueError, "word is 'a_b', not of ASCII letters and digits alone"),
    (dict(word='é'), ValueError, "word is 'é', not of ASCII letters and digits alone"),
    (dict(document='\ud800'), ValueError, 'document has a lone surrogate at character 0'),
    (dict(prefixes={'x': 'a:b\ny: a:c'}), ValueError, "prefixes has 'a:b\\ny: a:c', with a line end"),
    (dict(prefixes={'x': 'a:b\r'}), ValueError, "prefixes has 'a:b\\r', with a line end"),
    (dict(iri=3, base='a:bcd'), ValueError, 'base has 5 bytes, more than the limit iri of 3'),
    (dict(base='no iri'), ValueError, "base is 'no iri', which is no IRI"),
    (dict(base=b'a:\xff'), ValueError, "base is b'a:\\xff', which is no IRI"),
    (dict(prefixes={'x': 'a:b', 'y:': 'a:c'}), rdfconv.BadPrefixes, 'bad prefixes at line 2'),
    (dict(prefixes={'x': 'a:b', '#y': 'a:c'}), rdfconv.BadPrefixes, 'bad prefixes at line 2'),
    (dict(prefixes={'@prefix x': '<a:b> .'}), rdfconv.BadPrefixes, 'bad prefixes at line 1'),
    (dict(document='<a:s> <a:p>\n1'), rdfconv.Refused, 'unexpected token at byte 13, line 2'),
]


# Documents that are refused for an unexpected token, each with its format.
UNEXPECTED = [('nt', '<a:s> <a:p> <a:o>\n'), ('nt', '<a:s> .'), ('nt', '"a"'), ('nt', '<a:s> <a:p> "a"@en ^^'), ('nq', '<a:s> <a:p> <a:o> "a" .'),
              ('ttl', '<a:s> <a:p> [ <a:q> 1 .'), ('ttl', '@prefix 1 .'), ('ttl', '( ] .'), ('ttl', 'a'),
              ('trig', '<a:g> { <a:s> <a:p> 1 } }'), ('trig', 'GRAPH .'), ('trig', '{ 1')]


def by_program(program, action, case, name, prefixes):
    format, base, named, (ascii, word) = case
    words = [program, action, '--format', format, *(['--base', base] if base else []), *(['--prefixes', prefixes] if named != '-' else []),
             *(['--ascii'] if ascii and action == 'convert' else []), *(['--node-prefix', word] if word and action == 'convert' else []), name]
    run = subprocess.run(words, capture_output=True)
    return run.stdout, run.stderr, run.returncode


def by_c(program, action, case, name, prefixes):
    """By the program in C or in C++."""
    format, base, named, (ascii, word) = case
    words = [f'{HERE}/{program}', action, format, name, base, prefixes if named != '-' else '-', str(int(ascii)), word]
    run = subprocess.run(words, capture_output=True)
    return run.stdout, run.stderr, run.returncode


def by_python(action, case, document):
    format, base, named, (ascii, word) = case
    try:
        if action == 'convert':
            return rdfconv.convert(document, format, base, PREFIXES[named], word, ascii=ascii), b'', 0
        quads, _, size = rdfconv.check(document, format, base, PREFIXES[named], ascii=ascii)
        return f'accepted, {quads} quads, {size} bytes\n'.encode(), b'', 0
    except rdfconv.Refused as refused:
        return refused.lines if action == 'convert' else b'', f'rdfconv: {refused}\n'.encode(), 1
    except rdfconv.BadPrefixes as bad:
        return b'', f'rdfconv: {bad}\n'.encode(), 2


class Counts:
    def __init__(self):
        self.runs = self.others = self.differ = 0

    def tell(self, same, *what):
        self.differ += not same
        print('same  ' if same else 'DIFFER', *what)

    def expect(self, what, same):
        self.others += 1
        self.tell(same, what)


def compare_runs(counts, program, names, room):
    for name in names:
        with open(name, 'rb') as file:
            document = file.read()
        for named in PREFIXES:
            for form in FORMS:
                case, prefixes, same = (name.rsplit('.', 1)[1], BASE if 'based' in name else '', named, form), f'{room}/{named}', True
                for action in 'check', 'convert':
                    wanted = by_program(program, action, case, name, prefixes)
                    same &= wanted == by_c('convert', action, case, name, prefixes) == by_c('convert++', action, case, name, prefixes)
                    same &= wanted == by_python(action, case, document)
                    counts.runs += 1
                counts.tell(same, os.path.basename(name), named, form, len(wanted[0]), wanted[1].decode().strip())


def compare_failures(counts, program, room):
    """What is no document, and what is no job: of the latter the program says more than C can."""
    for case, name in (('nt', '', '-', FORMS[0]), f'{room}/missing.nt'), (('nt', '', '-', FORMS[0]), room):
        for action in 'check', 'convert':
            wanted = by_program(program, action, case, name, '')
            for other in 'convert', 'convert++':
                counts.expect(f'{other} {action} of what does not open or read', wanted == by_c(other, action, case, name, ''))
    for case in ('nt', 'no iri', '-', FORMS[0]), ('nt', '', '-', (False, 'a_b')), ('turtle', '', '-', FORMS[0]):
        wanted = by_program(program, 'convert', case, f'{room}/none.nt', '')
        for other in 'convert', 'convert++':
            got = by_c(other, 'convert', case, f'{room}/none.nt', '')
            counts.expect(f'{other} of no job', got == (b'', b'rdfconv: no such format, base or word\n', 2) and wanted[2] == 2)


def apart(text):
    """The text in a memoryview that is not in a row."""
    return memoryview(bytes(byte for one in text for byte in (one, 0)))[::2]


def compare_arguments(counts):
    """How Python takes its arguments."""
    texts = ALL, 'a:/', 'ex: http://a/', 'w'
    forms = {'str': str, 'bytes': str.encode, 'bytearray': lambda text: bytearray(text.encode()),
             'memoryview': lambda text: memoryview(text.encode()),
             'memoryview of a bytearray': lambda text: memoryview(bytearray(text.encode())),
             'part of a memoryview': lambda text: memoryview(b'#' + text.encode() + b'#')[1:-1], 'cut memoryview': lambda text: apart(text.encode())}
    for name, form in forms.items():
        document, base, prefixes, word = map(form, texts)
        counts.expect(f'arguments as {name}', rdfconv.convert(document, 'ttl', base, prefixes, word) == LINES)
        counts.expect(f'arguments as {name}, to check', rdfconv.check(document, 'ttl', base, prefixes) == (2, 7, len(ALL.encode())))
        none = form('')
        counts.expect(f'no bytes as {name}', rdfconv.convert(none, 'nt', none, none, none) == b'')
    counts.expect('prefixes as a dict', rdfconv.convert(ALL, 'ttl', 'a:/', {'': 'http://b/', 'ex': 'http://a/'}, 'w') == LINES)
    counts.expect('prefixes as an empty dict', rdfconv.check('', prefixes={}) == (0, 0, 0))
    counts.expect('a prefix that begins with U+FEFF', rdfconv.check('\ufeff\ufeffx:s <a:p> 1 .', prefixes={'\ufeffx': 'a:b'})[0] == 1)
    for asks, kind, said in REFUSED:
        try:
            rdfconv.convert(**{'document': '', **asks})
            got = None
        except Exception as error:
            got = error
        counts.expect(f'{asks}: {got}', type(got) is kind and str(got).replace('rdfconv.', '') == said)
    try:
        rdfconv.convert(b'<a:s> <a:p> <a:o> .\n<a:s> <a:p> .\n', 'nt')
    except rdfconv.Refused as error:
        fields = [(one.reason, one.offset, one.line, one.lines) for one in (error, pickle.loads(pickle.dumps(error)))]
        counts.expect('fields of Refused, also out of another process', fields == [('unexpected token', 32, 2, b'<a:s> <a:p> <a:o> .\n')] * 2)
    document = bytearray(b'\n') * (64 << 20)
    before = resource.getrusage(resource.RUSAGE_SELF).ru_maxrss
    for form in document, memoryview(document)[1:]:
        rdfconv.check(form, 'nt')
    more = resource.getrusage(resource.RUSAGE_SELF).ru_maxrss - before
    counts.expect('a document of 64 MB is read where it stands', more < 32 << 10)


def compare_kinds(counts, program):
    """Of an unexpected token its kind, and the kinds of which one could have stood there, beside the program's words. Column and open bracket are the program's
    alone."""
    for format, document in UNEXPECTED:
        words = [program, 'check', '--format', format, '--explain']
        said = subprocess.run(words, input=document.encode(), capture_output=True).stderr.decode().splitlines()[1]
        said = re.sub(r'^(-:[0-9]+):[0-9]+:', r'\1:', said)
        said = re.sub(r'; "[\[({]" is open since line [0-9]+, column [0-9]+$', '', said)
        for call in rdfconv.check, rdfconv.convert:
            try:
                call(document, format)
                told = 'accepted'
            except rdfconv.Refused as refused:
                left_out = ({'"@prefix"', '"@base"'} if 'language tag' in refused.expected else set()) | ({'prefix'} if 'prefixed name' in refused.expected else set())
                *others, last = [name for name in refused.expected if name not in left_out]
                told = f'-:{refused.line}: {refused.reason}: {refused.found}; expected {", ".join(others)}{" or " if others else ""}{last}'
            counts.expect(f'{call.__name__} of {document!r}, {told} beside {said}', told == said)


def compare_shown(counts, room):
    """What the header says is what the module has, the header gives the library no NULL, and the library exports the three calls alone."""
    with open(f'{HERE}/rdfconv.h') as file:
        header = file.read()
    reasons = re.search(r'RDFCONV_REASONS \{(.*?)\}', header, re.S)[1]
    counts.expect('reasons of header and module', re.findall('"(.*?)"', reasons) == rdfconv.REASONS)
    kinds = re.search(r'RDFCONV_KINDS \{(.*?) \}\n', header, re.S)[1]
    counts.expect('kinds of header and module', [name.replace('\\"', '"') for name in re.findall(r'"((?:\\"|[^"])*)"', kinds)] == rdfconv.KINDS)
    limits = {name: (int(least), int(most)) for name, least, most in re.findall(r'uint64_t (\w+); +/\* .*, (\d+) to (\d+) \*/', header)}
    counts.expect('limits of header and module', limits == rdfconv.LIMITS)
    asked = re.search(r'RDFCONV_REQUEST\(format\) \{ \(format\), (.*) \}', header)[1].split(', ')
    for call in rdfconv.convert, rdfconv.check:
        given = [one.default for one in inspect.signature(call).parameters.values() if one.kind is one.KEYWORD_ONLY]
        counts.expect(f'what header and {call.__name__} ask for where nothing is given', [int(one) for one in asked] == given)
    for compiler in ['cc', '-std=c99'], ['c++', '-std=c++11', '-x', 'c++']:
        words = [*compiler, '-Wall', '-Wextra', '-pedantic', '-Werror', '-o', f'{room}/nulls', f'{HERE}/nulls.c']
        built = subprocess.run(words).returncode == 0
        counts.expect(f'{" ".join(compiler)}: no warning, and no NULL', built and subprocess.run([f'{room}/nulls']).returncode == 0)
    names = subprocess.run(['nm', '-D', '--defined-only', f'{HERE}/librdfconv.so'], capture_output=True, text=True).stdout.split()[2::3]
    counts.expect(f'librdfconv.so exports {", ".join(names)}', sorted(names) == ['rdfconv_check', 'rdfconv_check_expecting', 'rdfconv_convert'])
    shutil.copy(f'{HERE}/rdfconv.py', room)
    told = subprocess.run([sys.executable, '-c', 'import rdfconv'], cwd=room, capture_output=True, text=True)
    said = f'ImportError: {os.path.realpath(room)}/librdfconv.so is missing. To make it, run {os.path.realpath(room)}/build.sh\n'
    counts.expect('without librdfconv.so', told.returncode == 1 and told.stderr.endswith(said))


def main(program, files):
    counts = Counts()
    with tempfile.TemporaryDirectory() as room:
        for name, text in {**MADE, **PREFIXES}.items():
            with open(f'{room}/{name}', 'wb') as file:
                file.write(text)
        compare_runs(counts, program, files + [f'{room}/{name}' for name in MADE], room)
        compare_failures(counts, program, room)
        compare_arguments(counts)
        compare_kinds(counts, program)
        compare_shown(counts, room)
    print(f'{counts.runs} runs over {len(files) + len(MADE)} documents, and {counts.others} other comparisons: {counts.differ} differ')
    return counts.differ != 0


if __name__ == '__main__':
    sys.exit(main(sys.argv[1], sys.argv[2:]))
