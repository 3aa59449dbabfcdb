"""The table of shapes, and the terminals of the Recommendations: equality of languages, over exact classes of code points."""
import bisect
import functools
import itertools

import ebnf
from automata import Automaton, common_word, difference, told
from kit import Con
from notation import NoComputation

DIALECTS = {'Turtle': ['Turtle'], 'Lines': ['N-Triples', 'N-Quads']}    # a dialect, and the grammars whose terminals it has

# A row of the table, and the terminals that it has to be, where the grammar has them; or the text in quotes of a production.
TERMINALS = {
    'IriRef': ['IRIREF'], 'LabelNode': ['BLANK_NODE_LABEL'], 'LangTag': ['LANGTAG'],
    'ShortString': ['STRING_LITERAL_QUOTE', 'STRING_LITERAL_SINGLE_QUOTE'],
    'LongString': ['STRING_LITERAL_LONG_QUOTE', 'STRING_LITERAL_LONG_SINGLE_QUOTE'],
    'Integer': ['INTEGER'], 'Decimal': ['DECIMAL'], 'Double': ['DOUBLE'], 'PnameNs': ['PNAME_NS'], 'PnameLn': ['PNAME_LN']}
TEXTS = {
    'Carets': "'^^'", 'Dot': "'.'", 'True': "'true'", 'False': "'false'", 'A': "'a'", 'AtPrefix': "'@prefix'", 'AtBase': "'@base'",
    'Prefix': '"PREFIX"', 'Base': '"BASE"', 'Graph': '"GRAPH"', 'Semicolon': "';'", 'Comma': "','", 'OpenBracket': "'['",
    'CloseBracket': "']'", 'OpenParen': "'('", 'CloseParen': "')'", 'OpenBrace': "'{'", 'CloseBrace': "'}'"}
KINDS = [*TERMINALS, *TEXTS, 'LineEnd', 'End']      # all rows; End has no text
KEYWORDS_AND_TAGS = [{'AtPrefix', 'LangTag'}, {'AtBase', 'LangTag'}]    # of these the keyword counts


def has_text(grammar, text):
    """Whether the text in quotes stands in a production of the grammar."""
    return any(text in ebnf.WORD.findall(right) for right in ebnf.PRODUCTIONS[grammar].values())


def due(grammar, kind):
    """What the Recommendation has for a row of the table, as an expression over characters."""
    if kind == 'LineEnd':   # EOL is one or more of these; each is a token
        return with_one_class(ebnf.TERMINALS[grammar].get('EOL'))
    if kind in TERMINALS:
        return ebnf.choice([ebnf.terminal(grammar, it) for it in TERMINALS[kind] if it in ebnf.TERMINALS[grammar]])
    text = TEXTS.get(kind)
    if text is None or not any(has_text(it, text) for it in ([grammar, 'TriG'] if grammar == 'Turtle' else [grammar])):
        return ebnf.NONE
    return (ebnf.word_in_any_case if text[0] == '"' else ebnf.word_of)(text[1:-1])


def with_one_class(rule):
    """Of a rule that is a class with '+' the class alone."""
    return ebnf.characters({}, rule[:-1]) if rule else ebnf.NONE


class Shapes:
    """The table of shapes of some specs, as automata over cells of code points in which no class changes.

    The cells end where a number or a character of the definitions or of the terminals stands. `all_code_points` says whether that is so,
    by trying all.
    """

    def __init__(self, specs):
        self.specs = specs
        self.shape = specs.function('rdf_terms', 'Terminals', 'shape')
        self.has = functools.cache(specs.function('rdf_terms', 'Classes', 'has'))
        self.first = sorted(self.borders())
        self.mask = functools.cache(self.mask_of)
        self.automata = {}

    def borders(self):
        """The first code points of the cells. Numbers above the last one are no characters; they are a cell too."""
        found = {0, ebnf.LAST + 1}
        for module in ('Classes', 'Terminals'):
            for definition in self.specs.module('rdf_terms', module).definitions.values():
                for number in numbers_in([body for _, body in definition.clauses] if is_computed(definition) else []):
                    found.update([number, number + 1, number + 32, number + 33])    # 32 from a capital to its small letter
        for grammar in ebnf.TERMINALS:
            for kind in KINDS:
                for ranges in ebnf.letters_in(due(grammar, kind)):
                    found.update(it for low, high in ranges for it in (low, high + 1))
        return found

    def cell(self, c):
        return bisect.bisect_right(self.first, c) - 1

    def mask_of(self, label):
        """The cells of a label: a class of the definitions, or ranges."""
        if isinstance(label, Con):
            return sum(1 << cell for cell, c in enumerate(self.first) if self.has(label, c))
        return sum(1 << cell for cell, c in enumerate(self.first) if any(low <= c <= high for low, high in label))

    def automaton(self, expression):
        return Automaton(expression, len(self.first), self.mask)

    def of_kind(self, dialect, kind):
        if (dialect, kind) not in self.automata:
            self.automata[dialect, kind] = self.automaton(expression_of(self.shape(Con(dialect), Con(kind))))
        return self.automata[dialect, kind]

    def text(self, word):
        """A word of cells as the code points that are first in them."""
        return ' '.join('U+%04X' % self.first[it] for it in word) or 'the empty text'


def is_computed(definition):
    """Whether it is no relation."""
    try:
        return bool(definition.clauses)
    except NoComputation:
        return False


def numbers_in(tree):
    """The numbers and the characters that an expression of a definition names."""
    if isinstance(tree, list):
        for it in tree:
            yield from numbers_in(it)
    elif isinstance(tree, tuple) and tree[:1] == ('number',):
        yield tree[1]
    elif isinstance(tree, tuple) and tree[:1] == ('string',):
        yield from map(ord, tree[1])
    elif isinstance(tree, tuple):
        yield from numbers_in(list(tree[1:]))


def expression_of(regex):
    """An expression of the definitions as one of ebnf.py."""
    sorts = {'nothing': 'none', 'empty': 'empty', 'one': 'letter', '·': 'sequence', '∣': 'choice', 'many': 'many'}
    if regex.name == 'one':
        return ('letter', regex.args[0])
    return (sorts[regex.name], *map(expression_of, regex.args))


def compare_rows(specs):
    """Each row in each grammar, with its terminal."""
    shapes = Shapes(specs)
    rows = [patterns[1][1] for patterns, _ in specs.definition('rdf_terms', 'Terminals', 'shape').clauses]
    yield None if sorted(rows) == sorted(KINDS) else 'the rows of the table of shapes: %s' % rows
    for dialect, grammars in DIALECTS.items():
        for grammar, kind in itertools.product(grammars, KINDS):
            found = difference(shapes.of_kind(dialect, kind), shapes.automaton(due(grammar, kind)))
            yield told(found, 'shape %s %s and %s' % (dialect, kind, grammar), shapes.text)


def compare_parts(specs):
    """The names of labels and tags, which stand in terms without `_:` and '@', and white space and the ends of lines."""
    shapes = Shapes(specs)
    label, tag = (specs.function('rdf_terms', 'Terminals', it) for it in ('label_name', 'tag_name'))
    is_space, is_line_end = (specs.function('rdf_tokens', 'Tokens', it) for it in ('is_space', 'is_line_end'))
    is_word_char = specs.function('rdf_lines', 'NodePrefixes', 'is_word_char')
    for dialect, grammars in DIALECTS.items():
        for grammar in grammars:
            for name, front, regex in (('BLANK_NODE_LABEL', '_:', label(Con(dialect))), ('LANGTAG', '@', tag)):
                whole = shapes.automaton(('sequence', ebnf.word_of(front), expression_of(regex)))
                found = difference(whole, shapes.automaton(ebnf.terminal(grammar, name)))
                yield told(found, 'the name of %s in %s' % (name, grammar), shapes.text)
            white = shapes.mask(frozenset(ranges_of(ebnf.terminal(grammar, 'WS'))))
            found = sum(1 << it for it, c in enumerate(shapes.first) if is_space(Con(dialect), c))
            yield None if found == white else 'white space of %s' % grammar
    ends = shapes.mask(frozenset(ranges_of(due('N-Triples', 'LineEnd'))))
    found = sum(1 << it for it, c in enumerate(shapes.first) if is_line_end(c))
    yield None if found == ends else 'the ends of lines'
    words = shapes.mask(ebnf.class_of('a-zA-Z0-9'))     # of these a word in front of names has characters
    found = sum(1 << it for it, c in enumerate(shapes.first) if is_word_char(c))
    yield None if found == words else 'the characters of words in front of names'


def ranges_of(expression):
    return [it for ranges in ebnf.letters_in(expression) for it in ranges]


def compare_kinds(specs):
    """No text has two kinds, but for the keywords that are tags."""
    shapes = Shapes(specs)
    for dialect in DIALECTS:
        for one, other in itertools.combinations(KINDS, 2):
            word = common_word(shapes.of_kind(dialect, one), shapes.of_kind(dialect, other))
            is_stated = dialect == 'Turtle' and {one, other} in KEYWORDS_AND_TAGS
            yield None if (word is not None) == is_stated else '%s: %s and %s share %s' % (dialect, one, other, word and shapes.text(word))


def compare_all_code_points(specs):
    """In each cell all code points are in the same classes: so the automata are exact. Takes a minute."""
    shapes = Shapes(specs)
    has = specs.function('rdf_terms', 'Classes', 'has')
    used = {it for dialect in DIALECTS for kind in KINDS
            for it in ebnf.letters_in(expression_of(shapes.shape(Con(dialect), Con(kind))))}
    for label in sorted(used, key=repr):
        if label.name == 'the':     # one character, which is a cell of its own
            number = label.args[0]
            yield None if {number, number + 1} <= set(shapes.first) else 'the cell of %d' % number
            continue
        ends = shapes.first[1:] + [ebnf.LAST + 10]
        yield next(('%r changes at %#x' % (label, c) for low, end in zip(shapes.first, ends) for c in range(low, end)
                    if has(label, c) != shapes.has(label, low)), None)
