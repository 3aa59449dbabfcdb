"""The converter from Python, by ctypes over librdfconv.so beside this file, which build.sh makes.

    lines = rdfconv.convert('ex:a ex:b [] .', 'ttl', prefixes={'ex': 'http://example.org/'})
    quads, tokens, size = rdfconv.check(document, 'nt')

Document, base, prefixes and word are str, which is read as its UTF-8, or bytes, bytearray or memoryview, which are read where they
stand: let no other thread write there while a call lasts. Prefixes are lines as the program's --prefixes reads them, or a dict of
prefixes without their colons and IRIs. The word, of ASCII letters and digits, stands in front of the names of nodes. The limits token,
depth, bindings and iri, and ascii, are those of the program."""
import contextlib
import ctypes
import operator
import os
import re
from collections.abc import Mapping

FORMATS = {'nt': 0, 'nq': 1, 'ttl': 2, 'trig': 3}
LIMITS = {'token': (1, 268435456), 'depth': (0, 1048576), 'bindings': (0, 16777216), 'iri': (1, 268435456)}
REASONS = ['', 'bad UTF-8', 'no token', 'bad escape', 'token too long', 'document too long', 'out of memory', 'ended', 'unexpected token',
           'relative IRI', 'IRI too long', 'write failed', 'unbound prefix', 'no base', 'too deep', 'too many bindings', 'bad binding']
KINDS = ['IRI', 'blank node label', 'string', 'string', 'language tag', '"^^"', '"."', 'line end', 'number', 'number',
         'number', '"true"', '"false"', '"a"', '"@prefix"', '"@base"', '"PREFIX"', '"BASE"', '"GRAPH"', 'prefix', 'prefixed name',
         '";"', '","', '"["', '"]"', '"("', '")"', '"{"', '"}"', 'end of document']


class Request(ctypes.Structure):
    _fields_ = [(name, ctypes.c_uint64) for name in ('format', 'token', 'depth', 'bindings', 'iri', 'ascii')]


class Outcome(ctypes.Structure):
    _fields_ = [(name, ctypes.c_uint64) for name in
                ('status', 'reason', 'offset', 'line', 'quads', 'tokens', 'bytes', 'needed', 'written')]


class Unexpected(ctypes.Structure):
    _fields_ = [(name, ctypes.c_uint64) for name in ('found', 'expected', 'length')]


class Buffer(ctypes.Structure):
    """Python's Py_buffer: where the bytes of an object stand."""
    _fields_ = [('address', ctypes.c_void_p), ('object', ctypes.c_void_p), ('length', ctypes.c_ssize_t), ('itemsize', ctypes.c_ssize_t),
                ('readonly', ctypes.c_int), ('ndim', ctypes.c_int),
                *((name, ctypes.c_void_p) for name in ('format', 'shape', 'strides', 'suboffsets', 'internal'))]


class Refused(Exception):
    """A document that is refused: the reason, the byte from 0, its line from 1, and the lines of the quads before that place; of an
    unexpected token its kind, and the kinds of which one could have stood there (else None and none); and how many bytes the token
    there has, or could begin one where there is none (0 where that is not known)."""

    def __init__(self, reason, offset, line, lines, found=None, expected=(), length=0):
        super().__init__(f'{reason} at byte {offset}, line {line}')
        self.reason, self.offset, self.line, self.lines = reason, offset, line, lines
        self.found, self.expected, self.length = found, expected, length

    def __reduce__(self):
        return Refused, (self.reason, self.offset, self.line, self.lines, self.found, self.expected, self.length)


class BadPrefixes(Exception):
    """A line of the prefixes, or an entry of their dict, that is refused: the reason, and which it is, from 1."""

    def __init__(self, reason, line):
        super().__init__(f'bad prefixes at line {line}')
        self.reason, self.line = reason, line

    def __reduce__(self):
        return BadPrefixes, (self.reason, self.line)


def load(path):
    if not os.path.exists(path):
        raise ImportError(f'{path} is missing. To make it, run {os.path.dirname(path)}/build.sh', name=__name__, path=path)
    try:
        library = ctypes.CDLL(path)
    except OSError as error:
        raise ImportError(f'{error}. To make it anew, run {os.path.dirname(path)}/build.sh', name=__name__, path=path) from error
    slices = [ctypes.c_void_p, ctypes.c_size_t]
    library.rdfconv_convert.argtypes = [ctypes.POINTER(Request), *slices * 5, ctypes.POINTER(Outcome)]
    library.rdfconv_check_expecting.argtypes = [ctypes.POINTER(Request), *slices * 3, ctypes.POINTER(Outcome), ctypes.POINTER(Unexpected)]
    library.rdfconv_convert.restype = library.rdfconv_check_expecting.restype = None
    return library


library = load(os.path.join(os.path.dirname(os.path.abspath(__file__)), 'librdfconv.so'))
get_buffer, release_buffer = ctypes.pythonapi.PyObject_GetBuffer, ctypes.pythonapi.PyBuffer_Release
get_buffer.argtypes, get_buffer.restype = [ctypes.py_object, ctypes.POINTER(Buffer), ctypes.c_int], ctypes.c_int
release_buffer.argtypes, release_buffer.restype = [ctypes.POINTER(Buffer)], None


def bytes_of(name, value):
    """The argument's bytes, as an object that has them in memory in a row."""
    if isinstance(value, str):
        try:
            return value.encode()
        except UnicodeEncodeError as error:
            raise ValueError(f'{name} has a lone surrogate at character {error.start}') from None
    if isinstance(value, memoryview) and not value.c_contiguous:
        return value.tobytes()
    if isinstance(value, (bytes, bytearray, memoryview)):
        return value
    raise TypeError(f'{name} is of type {type(value).__name__}, not str, bytes, bytearray or memoryview')


def prefixes_of(value):
    """The lines of the prefixes. Of a dict each entry is one line, and the mark in front is passed over."""
    if not isinstance(value, Mapping):
        return bytes_of('prefixes', value)
    for text in (*value, *value.values()):
        if not isinstance(text, str):
            raise TypeError(f'prefixes has {text!r:.99}, which is of type {type(text).__name__}, not str')
        if re.search('[\r\n]', text):
            raise ValueError(f'prefixes has {text!r:.99}, with a line end')
    return bytes_of('prefixes', '\ufeff' + '\n'.join(line_of(prefix, iri) for prefix, iri in value.items()))


def line_of(prefix, iri):
    """The line of an entry. What no prefix has could make it a comment or a directive, so it gives a line that is refused."""
    return ':' if re.search('[ \t#]', prefix) else f'{prefix}: {iri}'


@contextlib.contextmanager
def slices_of(*objects):
    """The address and the length of each object's bytes, which stay there until the end."""
    with contextlib.ExitStack() as held:
        found = []
        for one in objects:
            buffer = Buffer()
            get_buffer(one, buffer, 0)
            held.callback(release_buffer, buffer)
            found += [buffer.address or ctypes.addressof(buffer), buffer.length]  # never NULL, as the library asks
        yield found


def request_of(format, token, depth, bindings, iri, ascii):
    if not isinstance(format, str):
        raise TypeError(f'format is of type {type(format).__name__}, not str')
    if format not in FORMATS:
        raise ValueError(f'format is {format!r:.99}, not one of {", ".join(FORMATS)}')
    if ascii not in (False, True):
        raise ValueError(f'ascii is {ascii!r:.99}, not False or True')
    asked = Request(FORMATS[format], ascii=bool(ascii))
    for name, value in dict(token=token, depth=depth, bindings=bindings, iri=iri).items():
        least, most = LIMITS[name]
        try:
            number = operator.index(value)
        except TypeError:
            raise TypeError(f'{name} is of type {type(value).__name__}, not int') from None
        if not least <= number <= most:
            raise ValueError(f'{name} is {number}, not {least} to {most}')
        setattr(asked, name, number)
    return asked


def base_of(value, iri):
    base = bytes_of('base', value)
    if memoryview(base).nbytes > iri:
        raise ValueError(f'base has {memoryview(base).nbytes} bytes, more than the limit iri of {iri}')
    return base


def word_of(value):
    word = bytes_of('word', value)
    if not re.fullmatch(rb'[0-9A-Za-z]*', word):
        raise ValueError(f'word is {value!r:.99}, not of ASCII letters and digits alone')
    return word


def kinds_of(bits):
    """The names of the kinds in a set, each once, in their order."""
    return tuple(dict.fromkeys(name for bit, name in enumerate(KINDS) if bits >> bit & 1))


def end(outcome, base, lines, unexpected):
    if outcome.status == 1:
        found = kinds_of(unexpected.found)
        raise Refused(REASONS[outcome.reason], outcome.offset, outcome.line, lines, found[0] if found else None, kinds_of(unexpected.expected),
                      unexpected.length)
    if outcome.status == 2:  # all else that has no job was looked at before
        raise ValueError(f'base is {base!r:.99}, which is no IRI')
    if outcome.status == 4:
        raise MemoryError('out of memory')
    if outcome.status == 6:
        raise BadPrefixes(REASONS[outcome.reason], outcome.line)


def convert(document, format='trig', base='', prefixes='', word='', *, token=1 << 24, depth=1 << 10, bindings=1 << 16, iri=1 << 20,
            ascii=False):
    """The lines of the document's quads, as bytes."""
    asked, outcome = request_of(format, token, depth, bindings, iri, ascii), Outcome()
    with slices_of(base_of(base, iri), prefixes_of(prefixes), word_of(word), bytes_of('document', document)) as slices:
        room = 2 * slices[-1] + 4096
        while True:
            output = ctypes.create_string_buffer(room)
            library.rdfconv_convert(asked, *slices, ctypes.addressof(output), room, outcome)
            if outcome.needed <= room:
                break
            room = outcome.needed
        lines, unexpected = ctypes.string_at(output, outcome.written), Unexpected()
        if outcome.status == 1:
            library.rdfconv_check_expecting(asked, *slices[:4], *slices[6:], Outcome(), unexpected)
    end(outcome, base, lines, unexpected)
    return lines


def check(document, format='trig', base='', prefixes='', *, token=1 << 24, depth=1 << 10, bindings=1 << 16, iri=1 << 20, ascii=False):
    """How many quads, tokens and bytes an accepted document has."""
    asked, outcome, unexpected = request_of(format, token, depth, bindings, iri, ascii), Outcome(), Unexpected()
    with slices_of(base_of(base, iri), prefixes_of(prefixes), bytes_of('document', document)) as slices:
        library.rdfconv_check_expecting(asked, *slices, outcome, unexpected)
    end(outcome, base, b'', unexpected)
    return outcome.quads, outcome.tokens, outcome.bytes
