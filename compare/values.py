"""The values of escapes, written anew from Turtle 6.4 and N-Triples 2.2 and 2.3; the names of nodes; and characters as they are written."""
import itertools
import random
import re

from kit import Con, Record, string_of, text_of, value_in


# Turtle 6.4, the table of string escapes.
LETTERS = {'t': '\t', 'b': '\b', 'n': '\n', 'r': '\r', 'f': '\f', '"': '"', "'": "'", '\\': '\\'}
LOCAL_ESCAPES = "_~.-!$&'()*+,;=/?#@%"
NUMERIC = re.compile(r'\\u([0-9A-Fa-f]{4})|\\U([0-9A-Fa-f]{8})')
NOT_IN_IRIS = re.compile(r'[\x00-\x20<>"{}|^`\\]')
PIECES = ['\\', 'u', 'U', 'n', 't', '0', '4', '1', 'D', '8', 'a', 'F', '<', '>', '"', "'", ' ', '%', '~', '.', '\\u0041', '\\u00e9', '\\uD7FF',
          '\\uE000', '\\uDFFF', '\\uD800', '\\U0010FFFF', '\\U00110000', '\\u0020', '\\u005C', '\\u007D', '\\~', '\\%', '\\f', "\\'", '\u00e9', '\n',
          *(it % letter for letter in 'tbnrf"\'\\' for it in ('\\%s', '%s'))]


def string_value(text):
    """What the inside of a string means, or None."""
    return value(text, True)


def iri_value(text):
    """What the inside of an IRIREF means, or None: also an escape must not stand for a character that IRIREF excludes."""
    return value(text, False)


def value(text, is_string):
    found, at = '', 0
    while at < len(text):
        escape = NUMERIC.match(text, at)
        if escape:
            number = int(escape[1] or escape[2], 16)
            if number > 0x10FFFF or 0xD800 <= number <= 0xDFFF:
                return None
            character, at = chr(number), escape.end()
        elif is_string and text[at] == '\\' and text[at + 1:at + 2] in LETTERS:
            character, at = LETTERS[text[at + 1]], at + 2
        elif text[at] == '\\':
            return None
        else:
            character, at = text[at], at + 1
        if not is_string and NOT_IN_IRIS.match(character):
            return None
        found += character
    return found


def local_value(text):
    """What a local part means, or None: PN_LOCAL_ESC stands for its character, and '%' with its digits stays (Turtle 6.4)."""
    found, at = '', 0
    while at < len(text):
        if text[at] == '\\':
            at += 1
            if text[at:at + 1] not in list(LOCAL_ESCAPES):
                return None
        elif NOT_IN_IRIS.match(text[at]):
            return None
        found += text[at]
        at += 1
    return found


def compare_values(specs, seed, many):
    """The three values of texts at random, with many backslashes; and the table of letters."""
    table = specs.function('rdf_terms', 'Pieces', 'letters')
    yield None if {chr(row[0]): chr(row[1]) for row in table} == LETTERS and len(table) == len(LETTERS) else 'the letters of ECHAR'
    functions = [(name, specs.function('rdf_terms', 'Values', name), own)
                 for name, own in (('string_value', string_value), ('iri_value', iri_value), ('local_value', local_value))]
    chosen = random.Random('values %s' % seed)
    hex_number = specs.function('rdf_terms', 'Pieces', 'hex_number')
    for digits in [*'0123456789abcdefABCDEF', *(''.join(chosen.choice('0123456789abcdefABCDEF') for _ in range(8)) for _ in range(100))]:
        yield None if hex_number(text_of(digits)) == int(digits, 16) else 'the number of the hex digits ' + digits
    fixed = [''.join(it) for length in range(3) for it in itertools.product(PIECES, repeat=length)]
    for text in fixed + [''.join(chosen.choice(PIECES) for _ in range(chosen.randint(1, 6))) for _ in range(many)]:
        for name, function, own in functions:
            found = value_in(function(text_of(text)))
            found = None if found is None else string_of(found)
            yield None if found == own(text) else '%s of %r: %r, not %r' % (name, text, found, own(text))


def compare_known(specs):
    """The IRIs that a document means without spelling them (Turtle 2.4, 2.5, 2.8, RDF 1.1 Concepts 3.3 and 5)."""
    known_chars = specs.function('rdf_terms', 'Known', 'known_chars')
    rdf, xsd = 'http://www.w3.org/1999/02/22-rdf-syntax-ns#', 'http://www.w3.org/2001/XMLSchema#'
    for front, vocabulary, names in (('Rdf', rdf, 'type first rest nil'), ('Xsd', xsd, 'string integer decimal double boolean')):
        for name in names.split():
            found = string_of(known_chars(Con(front + name.capitalize())))
            yield None if found == vocabulary + name else 'known IRI: %s' % found
    found = string_of(specs.function('rdf_terms', 'Terms', 'xsd_string'))
    yield None if found == xsd + 'string' else 'xsd_string: %s' % found


def form(style, escapes='Plain', prefix=''):
    """The form of what is written."""
    return Record({'style': Con(style), 'escapes': Con(escapes), 'prefix': text_of(prefix)})


def numeric_escape(c):
    return ('\\u%04X' if c <= 0xFFFF else '\\U%08X') % c


def compare_written_characters(specs, step):
    """Characters as they are written: in ASCII by a numeric escape above U+007F, and in a string four of them by a letter.

    The first characters, and each so many-th after them; what is written is read as the character.
    """
    written, escaped, uchar = (specs.function('rdf_lines', 'Writing', it) for it in ('written', 'escaped', 'uchar'))
    read = specs.function('rdf_terms', 'Values', 'string_value')
    letters = {'"': '\\"', '\\': '\\\\', '\n': '\\n', '\r': '\\r'}
    borders = [0xD7FF, 0xE000, 0xFFFF, 0x10000, 0xFFFFF, 0x100000, 0x10FFFF]
    for c in sorted({*range(0x300), *range(0x300, 0x110000, step), *borders}):
        if 0xD800 <= c <= 0xDFFF:
            continue
        for escapes in ('Plain', 'Ascii'):
            in_iri = chr(c) if escapes == 'Plain' or c <= 0x7F else numeric_escape(c)
            in_string = letters.get(chr(c), in_iri)
            found = written(Con(escapes), c), escaped(Con(escapes), c)
            is_right = found == (text_of(in_iri), text_of(in_string)) and value_in(read(found[1])) == (c,)
            yield None if is_right else 'U+%04X as it is written, %s: %s' % (c, escapes, found)
        yield None if string_of(uchar(c)) == numeric_escape(c) and value_in(read(uchar(c))) == (c,) else 'the escape of U+%04X' % c


def compare_names(specs):
    """Names are different for different nodes: all labels of a few characters, and offsets; with one word in front, and with words of one length."""
    name_node = specs.function('rdf_lines', 'NodeNames', 'name_node')
    labels = [''.join(it) for length in (1, 2, 3) for it in itertools.product('nac01_', repeat=length)]
    numbers = [*range(120), 10**6, 2**63 - 2]
    nodes = [Con('Label', (text_of(it),)) for it in labels] + [Con(it, (n,)) for it in ('Anon', 'Cell') for n in numbers]
    for words in ([''], ['a', 'n', '1'], ['an', 'na', 'a1']):
        known = {}
        for word, node in itertools.product(words, nodes):
            name = name_node(form('Tagged', prefix=word), node)
            other = known.setdefault(name, (word, node))
            is_right = other == (word, node) and name.name == 'Label' and string_of(name.args[0]).startswith(word)
            yield None if is_right else 'the name of %s and %s: %s' % (node, other[1], name)
    for node in nodes[:len(labels)]:
        yield None if name_node(form('Kept'), node) == node else 'the name of a label that is kept: %s' % node
