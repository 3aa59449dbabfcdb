"""The tokens of bytes: the definitions of rdf_tokens, and scanners that know nothing of them.

To run over documents, five definitions are replaced by words of Python: `kind_of`, `is_live` and `longest` by the automata of the table
of shapes, `past` by a sum, and the kit's words on UTF-8 by Python's. `compare_words` says that the first four give the same.
"""
import itertools
import random

import reader
import utf8
from antt import Specs
from kit import Con, NONE, Pair, Record, some, string_of, text_of
from shapes import DIALECTS, KINDS, Shapes, due

NO_LIMIT = 10**6
# The reader's kinds of tokens that have another name in the definitions.
READER_KINDS = {
    'IRIREF': 'IriRef', 'BLANK_NODE_LABEL': 'LabelNode', 'LANGTAG': 'LangTag', 'EOL': 'LineEnd', 'INTEGER': 'Integer', 'DECIMAL': 'Decimal',
    'DOUBLE': 'Double', 'PNAME_NS': 'PnameNs', 'PNAME_LN': 'PnameLn', 'STRING_LITERAL_QUOTE': 'ShortString',
    'STRING_LITERAL_SINGLE_QUOTE': 'ShortString', 'STRING_LITERAL_LONG_QUOTE': 'LongString', 'STRING_LITERAL_LONG_SINGLE_QUOTE': 'LongString',
    '^^': 'Carets', '.': 'Dot', 'true': 'True', 'false': 'False', 'a': 'A', '@prefix': 'AtPrefix', '@base': 'AtBase', 'PREFIX': 'Prefix',
    'BASE': 'Base', 'GRAPH': 'Graph', ';': 'Semicolon', ',': 'Comma', '[': 'OpenBracket', ']': 'CloseBracket', '(': 'OpenParen',
    ')': 'CloseParen', '{': 'OpenBrace', '}': 'CloseBrace', 'end': 'End'}
REASONS = {'bad_utf8': 'bad UTF-8', 'no_token': 'no token', 'bad_escape': 'bad escape', 'token_too_long': 'token too long'}
READER_DIALECTS = {'Turtle': reader.IN_TURTLE, 'Lines': reader.IN_LINES}

# Texts that are near a border between tokens.
HOSTILE = r'''1. 1.e5 1e:x x:d.e. truefalse true:x @prefixed "" """""" ..5 +.5E-3 - + 1e 1e+ .e5 1.5. 1..5 1.5e _:a. _:a..b. _:.a _:a.:b
    _:-a _:a- _:1. _:a:b _:: x:a%2 x:a%2g x:%41. x:\~. x:\ x:a\: a.b:c a.:c a a. A ab aPREFIX prefixx: PREFIXx: pReFiX bAsE graph GRAPH:
    @prefix @base @PREFIX @prefix-x @base- @en- @e1 @en-1 @ """ """a" """a""" """a"""" """a\"""" """"a""" ´´´ ´´ ´ ´a´ ´´´a´´b´´´
    "\uD800" "\U00110000" "\U0010FFFF" "\u12" "\q" <\u0020> <\u003E> <\uD800> <a\u00> <> <é> ^ ^^ #c (){}[],; truefalsetrue 1.0e5.5
    .5.5 -1-1 1+1e5+ x:1.5 x:- 0x1 é:é _:é _:· _:a· x:\u0300 x:_ x:0. x:: a:.b a:b..c. ſ: baſe'''.replace('´', "'").split() + [
    '"" ', '<a b>', '#c\n.', '\ufeff.', '\ufeff\ufeff.', '. \ufeff', '\r\n', '\n\r#x\r\n', 'x:\u0300', '\u0300:']
LETTERS = {'Turtle': '.1e+a:_"\'<>\\@#\nu%-', 'Lines': '.a:_"<>\\@#\n\r^u'}
PIECES = [*'''. 1 e E + - a true false x: y _: " ' < > \\ @ -x # ^ ^^ % : .. [ ] ( ) { } ; , 0 5 \\n %41 \\~ @prefix @base @en PREFIX base GRAPH
    "" """ \'\' \'\'\' \\u0041 \\U0001F600 \\uD800 \\u0020 é \u0300 \U0001F600 \ufeff \u00b7 \ue000'''.split(), '\n', '\r', ' ', '\t']


class Kinds:
    """All kinds of a dialect at once: the automata of their expressions side by side, the first that accepts counting."""

    def __init__(self, shapes, automata):
        self.cell = shapes.cell
        self.automata = automata    # pairs of a kind and its automaton
        self.first = tuple(0 for _ in automata)
        self.steps, self.said = {}, {}

    def step(self, state, c):
        """The state after one more character. None stands for an automaton that can accept no more."""
        key = state, self.cell(c)
        if key not in self.steps:
            after = [None if it is None else automaton.rows[it][key[1]] for it, (_, automaton) in zip(state, self.automata)]
            self.steps[key] = tuple(it if it is not None and (automaton.accepts[it] or automaton.goes_on[it]) else None
                                    for it, (_, automaton) in zip(after, self.automata))
        return self.steps[key]

    def says(self, state):
        """The kind of a text that leads to the state, or None, and whether a longer text is a token."""
        if state not in self.said:
            pairs = [(kind, automaton, it) for it, (kind, automaton) in zip(state, self.automata) if it is not None]
            self.said[state] = (next((kind for kind, automaton, it in pairs if automaton.accepts[it]), None),
                                any(automaton.goes_on[it] for _, automaton, it in pairs))
        return self.said[state]

    def of_text(self, text):
        state = self.first
        for c in text:
            state = self.step(state, c)
            if state.count(None) == len(state):
                break
        return self.says(state)

    def longest(self, text, is_allowed):
        """The length and the kind of the longest front that is a token of an allowed kind, or None."""
        state, found = self.first, None
        for length, c in enumerate(text, 1):
            state = self.step(state, c)
            kind, goes_on = self.says(state)
            if kind and is_allowed(kind):
                found = length, kind
            if not goes_on:
                break
        return found


def begins_with_three_quotes(text):
    return len(text) > 2 and text[0] == text[1] == text[2] and text[0] in (ord('"'), ord("'"))


def kinds_of_definitions(specs):
    """For each dialect the automata of the definitions, in the order in which they count."""
    shapes = Shapes(specs)
    order = [it.name for it in specs.function('rdf_terms', 'Shapes', 'kinds')]
    return {it: Kinds(shapes, [(kind, shapes.of_kind(it, kind)) for kind in order]) for it in DIALECTS}


def kinds_of_recommendations(specs):
    """The same of the terminals typed from the Recommendations: keywords before the tags that they are too."""
    shapes = Shapes(specs)
    order = [*[it for it in KINDS if it.startswith('At')], *[it for it in KINDS if not it.startswith('At')]]
    return {dialect: Kinds(shapes, [(kind, shapes.automaton(due(grammars[0], kind))) for kind in order])
            for dialect, grammars in DIALECTS.items()}


def put_fast_words(specs):
    """Replaces the slow definitions, and has some answers computed once."""
    kinds = kinds_of_definitions(specs)
    three_quotes = specs.function('rdf_tokens', 'Tokens', 'three_quotes')

    def kind_of(dialect, text):
        kind = kinds[dialect.name].of_text(text)[0]
        return some(Con(kind)) if kind else NONE

    def is_live(dialect, text):
        return kinds[dialect.name].of_text(text)[1]

    def longest(dialect, text, most):
        only_long = three_quotes(dialect, text)
        found = kinds[dialect.name].longest(text[:most], lambda kind: not only_long or kind == 'LongString')
        return some(Pair((found[0], Con(found[1])))) if found else NONE

    def past(place, text):
        return Record({'offset': place['offset'] + len(string_of(text).encode()), 'line': place['line'] + text.count(10)})
    for module, name, function in (('rdf_terms.Shapes', 'kind_of', kind_of), ('rdf_terms.Shapes', 'is_live', is_live),
                                   ('rdf_tokens.Tokens', 'longest', longest), ('rdf_tokens.Tokens', 'past', past)):
        specs.replace(*module.split('.'), name, function)
    for module, name in (('Classes', 'has'), ('Values', 'iri_value'), ('Values', 'string_value')):
        specs.remember('rdf_terms', module, name)


def compare_words(specs, seed, many):
    """The words that are replaced and those in their place, over short texts. `specs` are not changed."""
    fast = Specs(specs.edits)
    put_fast_words(fast)
    words = {name: [it.function(crate, module, name) for it in (specs, fast)] for crate, module, name in (
        ('rdf_terms', 'Shapes', 'kind_of'), ('rdf_terms', 'Shapes', 'is_live'), ('rdf_tokens', 'Tokens', 'longest'),
        ('rdf_tokens', 'Tokens', 'past'))}
    chosen = random.Random('words %s' % seed)
    place = Record({'offset': 3, 'line': 2})
    texts = [it[:8] for it in HOSTILE] + [''.join(chosen.choice(PIECES) for _ in range(chosen.randint(1, 3))) for _ in range(many)]
    for text in map(text_of, texts):
        for dialect in map(Con, DIALECTS):
            for name, arguments in (('kind_of', (dialect, text)), ('is_live', (dialect, text)), ('longest', (dialect, text, len(text)))):
                slow, found = (it(*arguments) for it in words[name])
                yield None if slow == found else '%s of %r: %s, not %s' % (name, string_of(text), found, slow)
        slow, found = (it(place, text) for it in words['past'])
        yield None if slow == found else 'past %r: %s, not %s' % (string_of(text), found, slow)


# Scanners that know nothing of the definitions

def is_fit(kind, text):
    """Whether each escape of an IRIREF or a string stands for a character that may stand there (a choice: docs/DECISIONS.md)."""
    return kind not in ('IriRef', 'ShortString', 'LongString') or not reader.has_bad_escape('IRIREF' if kind == 'IriRef' else kind, text)


class Scanner:
    """Tokens by longest match over the terminals of the Recommendations, also where more bytes may come, and with a limit."""

    def __init__(self, kinds, dialect):
        self.kinds, self.dialect = kinds[dialect], dialect
        self.blank = READER_DIALECTS[dialect].blank

    def scan(self, document, is_end=True, limit=NO_LIMIT):
        """The tokens as triples of kind, text and byte; why there are no more; and the byte of that."""
        length = utf8.valid_length(document)
        text, rest = document[:length].decode('utf-8'), document[length:]
        is_broken = bool(rest) and (is_end or not utf8.can_be_completed(rest))
        is_open = is_broken or not is_end
        at, found = int(text.startswith('\ufeff')), []
        while True:
            at = self.blank.match(text, at).end()
            here, byte = text_of(text[at:]), len(text[:at].encode())
            kind, goes_on = self.kinds.of_text(here[:limit + 1])
            if len(here) > limit and (kind or goes_on):
                return found, 'token_too_long', byte
            if is_open and (not here or self.kinds.of_text(here)[1]):
                return found, *(('bad_utf8', length) if is_broken else ('undecided', byte))
            if not here:
                return found + [('End', '', byte)], 'complete', byte
            only_long = self.dialect == 'Turtle' and begins_with_three_quotes(here)
            longest = self.kinds.longest(here, lambda kind: not only_long or kind == 'LongString')
            if not longest:
                return found, 'no_token', byte
            token = text[at:at + longest[0]]
            if not is_fit(longest[1], token):
                return found, 'bad_escape', byte
            found.append((longest[1], token, byte))
            at += longest[0]


def scan_by_reader(document, dialect):
    """The same by the independent reader's scanner, for a whole document without a limit."""
    scanner, found = reader.Scanner(document, READER_DIALECTS[dialect]), []
    while True:
        try:
            token = scanner.next()
        except reader.Refused as stop:
            return found, next(it for it, reason in REASONS.items() if reason == stop.reason), stop.byte
        found.append((READER_KINDS[token.kind], token.text, token.byte))
        if token.kind == 'end':
            return found, 'complete', token.byte


def with_lines(document, scanned):
    """The same with the number of the line at each byte."""
    def line(byte):
        return 1 + document[:byte].count(b'\n')
    tokens, outcome, byte = scanned
    return [(*it, line(it[2])) for it in tokens], outcome, (byte, line(byte))


def scan_by_definitions(tokens_of, document, dialect, is_end=True, limit=NO_LIMIT):
    reading = tokens_of(Con(dialect), limit, tuple(document), is_end)
    tokens = [(it['kind'].name, string_of(it['text']), it['at']['offset'], it['at']['line']) for it in reading['tokens']]
    return tokens, reading['outcome'].name, (reading['at']['offset'], reading['at']['line'])


def some_bytes(chosen):
    """Pieces of tokens, some of them broken, or cut within a character."""
    found = ''.join(chosen.choice(PIECES) for _ in range(chosen.randint(1, 12))).encode()
    at = chosen.randrange(len(found) + 1)
    if chosen.random() < .3:
        found = found[:at] + bytes([chosen.choice([0xFF, 0xC3, 0x80, 0xED, 0xF0, 0xE2])]) + found[at:]
    return found[:at] if chosen.random() < .1 else found


def texts_to_scan(seed, longest, many):
    """Triples of bytes, a dialect and a limit."""
    chosen = random.Random('scanning %s' % seed)
    for dialect in DIALECTS:
        for text in HOSTILE:
            yield from ((text.encode(), dialect, limit) for limit in (NO_LIMIT, 1, 2, 3, 5))
        for length in range(longest + 1):
            yield from ((''.join(it).encode(), dialect, NO_LIMIT) for it in itertools.product(LETTERS[dialect], repeat=length))
    for _ in range(many):
        yield some_bytes(chosen), chosen.choice(list(DIALECTS)), NO_LIMIT if chosen.random() < .7 else chosen.randint(1, 9)


def compare_tokens(specs, seed, longest, many):
    """`tokens_of` with a scanner over the Recommendations' terminals, with the end and without, and with the independent reader's."""
    put_fast_words(specs)
    tokens_of = specs.function('rdf_tokens', 'Good', 'tokens_of')
    scanners = {it: Scanner(kinds_of_recommendations(specs), it) for it in DIALECTS}
    for document, dialect, limit in texts_to_scan(seed, longest, many):
        for is_end in (True, False):
            found = scan_by_definitions(tokens_of, document, dialect, is_end, limit)
            wanted = with_lines(document, scanners[dialect].scan(document, is_end, limit))
            yield None if found == wanted else 'tokens of %r in %s, %s, limit %d: %s, not %s' % (
                document, dialect, 'whole' if is_end else 'cut', limit, found, wanted)
            if is_end and limit == NO_LIMIT:
                wanted = with_lines(document, scan_by_reader(document, dialect))
                yield None if found == wanted else 'tokens of %r in %s: %s, the reader has %s' % (document, dialect, found, wanted)
