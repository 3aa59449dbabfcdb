"""The productions of trees, read off the definitions `*_tokens`, and those of the Recommendations: equality of languages."""
import functools

import ebnf
from automata import Automaton, difference, told
from kit import Con, NONE as NO_VALUE, Record, some
from shapes import TERMINALS, TEXTS


# A definition of rdf_trig's TreeTokens, and the production whose tokens it gives. Any other production is read as its right side.
TREES = {
    'prefixed_tokens': 'PrefixedName', 'iri_tokens': 'iri', 'blank_tokens': 'BlankNode', 'verb_tokens': 'verb', 'string_tokens': 'String',
    'tag_tokens': 'LANGTAG', 'rdf_tokens': 'RDFLiteral', 'numeric_tokens': 'NumericLiteral', 'boolean_tokens': 'BooleanLiteral',
    'literal_tokens': 'literal', 'object_tokens': 'object', 'collection_tokens': 'collection', 'list_tokens': 'blankNodePropertyList',
    'predicates_tokens': 'predicateObjectList', 'objects_tokens': 'objectList', 'subject_tokens': 'subject', 'triples_tokens': 'triples',
    'directive_tokens': 'directive', 'label_tokens': 'labelOrSubject', 'block_tokens': 'triplesBlock', 'wrapped_tokens': 'wrappedGraph',
    'triples_or_graph_tokens': 'triplesOrGraph', 'triples2_tokens': 'triples2', 'trig_tokens': 'block', 'document_tokens': 'document'}
TAIL_HELPERS = ['more_tokens', 'commas_tokens', 'items_tokens']     # (..)* in a production
FORMS = {'Turtle': 'turtleDoc', 'TriG': 'trigDoc'}
# The same of rdf_lines' Lines, by format.
LINES = {
    'N-Triples': {'name_tokens': 'subject', 'object_tokens': 'object', 'statement_tokens': 'triple', 'document_tokens': 'ntriplesDoc'},
    'N-Quads': {'name_tokens': 'subject', 'object_tokens': 'object', 'graph_tokens': 'graphLabel', 'statement_tokens': 'statement',
                'document_tokens': 'nquadsDoc'}}

KINDS = {name: kind for kind, names in TERMINALS.items() for name in names}
KINDS.update((text, kind) for kind, text in TEXTS.items())
# After a string '@base' and '@prefix' are language tags too (Turtle has them in LANGTAG; a scanner takes the keyword).
TAGS = ebnf.choice([('letter', it) for it in ('LangTag', 'AtBase', 'AtPrefix')])
LINE_ENDS = ('sequence', ('letter', 'LineEnd'), ('many', ('letter', 'LineEnd')))


# The definitions' side

class Item:
    """A part of a clause's right side: a token of a kind, or what a definition gives of a part of the tree.

    The part is a variable of the pattern (`variable`), a field of it (`field`), or all of it. It may be one that can be missing.
    """

    def __init__(self, name, is_token, argument, is_optional=False):
        self.name, self.is_token, self.is_optional = name, is_token, is_optional
        self.variable = argument[1] if argument[0] == 'name' else argument[1][1]
        self.field = argument[2] if argument[0] == 'field' else None


def parts_of_application(tree):
    arguments = []
    while tree[0] == 'apply':
        arguments.insert(0, tree[2])
        tree = tree[1]
    return tree[1] if tree[0] == 'name' else None, arguments


def items_of(tree):
    """The parts of a clause's right side, in order."""
    if tree[0] == 'nil':
        return []
    if tree[0] == 'operator' and tree[1] in ('++', '∷'):
        return (items_of(tree[2]) if tree[1] == '++' else [item_of(tree[2])]) + items_of(tree[3])
    return [item_of(tree)]


def item_of(tree):
    name, arguments = parts_of_application(tree)
    if name == 'token':
        return Item(arguments[0][1], True, arguments[1])
    if name == 'maybe_tokens':
        return Item(arguments[0][1], False, arguments[1], True)
    return Item(name, False, arguments[-1])


class TreeGrammar:
    """The grammar that the definitions `*_tokens` of a module are, for one form of documents."""

    def __init__(self, specs, crate, module, form):
        self.specs, self.crate, self.module, self.form = specs, crate, module, form
        self.rules = {}

    def rule(self, name):
        """The clauses of a definition as pairs of a pattern and the items of its right side."""
        if name not in self.rules:
            clauses = self.specs.definition(self.crate, self.module, name).clauses
            self.rules[name] = [(patterns[-1], items_of(body)) for patterns, body in clauses if self.is_of_form(patterns)]
        return self.rules[name]

    def is_of_form(self, patterns):
        """Whether the clause is for the form, which can be an argument before the tree."""
        explicit = [it for it in patterns if it[0] != 'implicit']
        return len(explicit) == 1 or explicit[0][1] == self.form

    def expression(self, name, is_inlined):
        """The right sides of a definition, over kinds and names of definitions; some of these are replaced by their own right sides."""
        return ebnf.choice([ebnf.sequence([self.letter(it, is_inlined) for it in items]) for _, items in self.rule(name)])

    def letter(self, item, is_inlined):
        found = ('letter', item.name)
        if not item.is_token and is_inlined(item.name):
            found = self.expression(item.name, is_inlined)
        return ('choice', ebnf.EMPTY, found) if item.is_optional else found


class LineGrammar(TreeGrammar):
    """That of a line format: N-Triples has no graph label (`graph_fits`)."""

    def is_of_form(self, patterns):
        return True

    def rule(self, name):
        found = super().rule(name)
        if name == 'graph_tokens' and self.form == 'N-Triples':
            return [it for it in found if it[0] == ('name', 'None')]
        return found


# The Recommendations' side

def meaning_in(grammar, names):
    """What a word of a production stands for: a kind, a definition, or the right side of a production that has no definition."""
    def meaning(word):
        if word in names:
            return ('letter', names[word])
        if word == 'LANGTAG':
            return ('letter', 'LangTag')
        if word == 'EOL':
            return LINE_ENDS
        if word in KINDS:
            return ('letter', KINDS[word])
        return ebnf.production(grammar, word, meaning)
    return meaning


def due(grammar, name, names):
    """The right side of a production over kinds and names of definitions. A document ends with the token of the input's end."""
    if name == 'LANGTAG':
        return TAGS
    if name in FORMS.values() or name.endswith('Doc'):
        return ('sequence', ebnf.production(grammar, name, meaning_in(grammar, names)), ('letter', 'End'))
    return ebnf.production(grammar, name, meaning_in(grammar, names))


def whole_grammar(grammar):
    """All productions over kinds and names of productions, with `document` in place of the first."""
    rules = {}
    names = {it: it for it in ebnf.PRODUCTIONS[grammar]}
    if grammar in FORMS:
        names['LANGTAG'] = 'LANGTAG'
    for name in names:
        rules['document' if name.endswith('Doc') else name] = due(grammar, name, names)
    return rules


# Comparison

def compare_languages(one, other, helpers, what):
    """None where the two expressions have the same language, or where they differ."""
    letters = sorted(set().union(*map(ebnf.letters_in, [one, other, *helpers.values()])) - set(helpers))
    mask = functools.cache(lambda label: 1 << letters.index(label))
    found = difference(Automaton(one, len(letters), mask, helpers), Automaton(other, len(letters), mask))
    return told(found, what, lambda word: ' '.join(letters[it] for it in word) or 'the empty text')


def compare_trees(specs):
    """Each definition of rdf_trig's TreeTokens with its production, in Turtle and in TriG."""
    maybe = specs.definition('rdf_trig', 'TreeTokens', 'maybe_tokens').texts
    yield None if maybe == [('tokens None', '[]'), ('tokens (Some x)', 'tokens x')] else 'maybe_tokens is not as it is read here: %s' % maybe
    for grammar in FORMS:
        trees = TreeGrammar(specs, 'rdf_trig', 'TreeTokens', grammar)
        helpers = {it: trees.expression(it, lambda name: False) for it in TAIL_HELPERS}
        helpers['document_tokens'] = trees.expression('document_tokens', lambda name: name == 'body_tokens')
        names = {production: name for name, production in TREES.items()}
        for name, production in TREES.items():
            production = FORMS[grammar] if production == 'document' else production
            if production in ebnf.PRODUCTIONS[grammar] or production == 'LANGTAG':
                found = ('letter', name) if name in helpers else trees.expression(name, lambda name: False)
                yield compare_languages(found, due(grammar, production, names), helpers, '%s and %s of %s' % (name, production, grammar))


def compare_lines(specs):
    """Each definition of rdf_lines' Lines with its production: all of these are languages of tokens."""
    fits = specs.definition('rdf_lines', 'Lines', 'graph_fits').texts
    yield None if fits == [('NTriples g', 'g ≡ None'), ('NQuads g', 'Unit')] else 'graph_fits is not as it is read here: %s' % fits
    for grammar, table in LINES.items():
        lines = LineGrammar(specs, 'rdf_lines', 'Lines', grammar)
        helpers = {'document_tokens': lines.expression('document_tokens', lambda name: name != 'document_tokens')}
        for name, production in table.items():
            found = ('letter', name) if name in helpers else lines.expression(name, lambda name: True)
            wanted = due(grammar, production, {})
            if name == 'graph_tokens':      # it may be missing
                wanted = ('choice', ebnf.EMPTY, wanted)
            yield compare_languages(found, wanted, helpers, '%s and %s of %s' % (name, production, grammar))


# Trees of tokens

class Ambiguous(Exception):
    """Two trees have the same tokens."""


class TreeParser:
    """The tree of some tokens, by the definitions' own clauses: each way in which they give these tokens is tried."""

    def __init__(self, grammar, tokens):
        self.grammar, self.tokens, self.found = grammar, tokens, {}

    def tree(self):
        """The tree that derives all of the tokens, or None."""
        trees = [value for end, value in self.derive('document_tokens', 0) if end == len(self.tokens)]
        return trees[0] if trees else None

    def derive(self, name, at):
        """The values whose tokens stand at a place, with the places after them."""
        if (name, at) not in self.found:
            found = {}
            for pattern, items in self.grammar.rule(name):
                for end, bound in self.in_row(items, 0, at, {}):
                    if end in found:
                        raise Ambiguous(name)
                    found[end] = made(pattern, bound)
            self.found[name, at] = list(found.items())
        return self.found[name, at]

    def in_row(self, items, first, at, bound):
        """The ways in which the items from a first one on stand at a place, with the values of variables and fields."""
        if first == len(items):
            yield at, bound
            return
        for end, value in self.of_item(items[first], at):
            yield from self.in_row(items, first + 1, end, with_value(bound, items[first], value))

    def of_item(self, item, at):
        if item.is_token:
            if at < len(self.tokens) and self.tokens[at]['kind'].name == item.name:
                yield at + 1, Record({'text': self.tokens[at]['text'], 'at': self.tokens[at]['at']})
        elif item.is_optional:
            yield at, NO_VALUE
            yield from ((end, some(value)) for end, value in self.derive(item.name, at))
        else:
            yield from self.derive(item.name, at)


def with_value(bound, item, value):
    """The values with one more: of a variable, of a field of the tree, or of several of its fields."""
    if item.field:
        value = Record({**bound.get(item.variable, {}), item.field: value})
    elif isinstance(bound.get(item.variable), Record):
        value = Record({**bound[item.variable], **value})
    return {**bound, item.variable: value}


def made(pattern, bound):
    """The tree that fits the pattern, with these values of its variables."""
    if pattern[0] == 'constructor':
        return Con(pattern[1], tuple(bound[it[1]] for it in pattern[2]))
    return bound[pattern[1]] if pattern[1] in bound else Con(pattern[1])
