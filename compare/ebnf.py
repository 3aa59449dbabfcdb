"""Reads grammars in the notation of the Recommendations (W3C's EBNF), from terminals.txt and productions.txt.

An expression is a tuple: ('none',), ('empty',), ('sequence', a, b), ('choice', a, b), ('many', a), and ('letter', label), whose label is
a frozenset of ranges of code points where characters are read, and the name of a kind of token or of a production where tokens are.
"""
import functools
import os
import re

from paths import HERE

NONE, EMPTY = ('none',), ('empty',)
LAST = 0x10FFFF
SCALARS = [(0, 0xD7FF), (0xE000, LAST)]     # a character is a Unicode scalar value


def read_grammars(name):
    """The rules of each grammar of a file: {grammar: {name of a rule: its right side}}."""
    grammars, rules = {}, None
    with open(os.path.join(HERE, name), encoding='utf-8') as file:
        text = re.sub(r'\n +', ' ', ''.join(line for line in file if not line.startswith('#')))
    for line in filter(None, map(str.strip, text.split('\n'))):
        found = re.fullmatch(r'grammar (\S+)(?: with (\S+))?', line)
        if found:
            rules = grammars[found[1]] = dict(grammars[found[2]]) if found[2] else {}
        else:
            name, right = re.fullmatch(r'(?:\[\w+\] )?(\w+) ::= (.*)', line).groups()
            rules[name] = right
    return grammars


TERMINALS = read_grammars('terminals.txt')
PRODUCTIONS = read_grammars('productions.txt')


# Expressions

def sequence(parts):
    return functools.reduce(lambda rest, it: it if rest == EMPTY else ('sequence', it, rest), reversed(parts), EMPTY)


def choice(parts):
    return functools.reduce(lambda one, other: ('choice', one, other), parts) if parts else NONE


def with_letters(expression, change):
    """The expression with each letter's label replaced by an expression."""
    if expression[0] == 'letter':
        return change(expression[1])
    return (expression[0], *(with_letters(it, change) for it in expression[1:]))


def letters_in(expression):
    if expression[0] == 'letter':
        return {expression[1]}
    return set().union(*(letters_in(it) for it in expression[1:]))


# Classes of characters

def complement(ranges):
    found, first = [], 0
    for low, high in sorted(ranges):
        if low > first:
            found.append((first, low - 1))
        first = max(first, high + 1)
    return found + [(first, LAST)]


def intersection(ranges, others):
    return frozenset((max(a, c), min(b, d)) for a, b in ranges for c, d in others if max(a, c) <= min(b, d))


def class_of(text):
    """What stands between '[' and ']': characters, ranges and `#x` numbers, or all others after a '^'."""
    is_negated = text.startswith('^')
    ranges = []
    for found in re.finditer(r'(#x[0-9A-Fa-f]+|[^#])(?:-(#x[0-9A-Fa-f]+|[^#]))?', text[is_negated:], re.S):
        first, last = number_of(found[1]), number_of(found[2] or found[1])
        ranges.append((first, last))
    return intersection(complement(ranges) if is_negated else ranges, SCALARS)


def number_of(text):
    return int(text[2:], 16) if len(text) > 1 else ord(text)


def character(number):
    return ('letter', frozenset([(number, number)]))


def word_of(text):
    return sequence([character(ord(c)) for c in text])


def word_in_any_case(text):
    return sequence([('letter', frozenset((ord(it), ord(it)) for it in {c.lower(), c.upper()})) for c in text])


# The notation

WORD = re.compile(r"'[^']*'|\"[^\"]*\"|#x[0-9A-Fa-f]+|\[[^\]]*\]|[A-Za-z_0-9]+|[()|*+?]")


class Reader:
    """Reads a right side; what a name, a text in quotes and a class mean is given."""

    def __init__(self, text, meaning):
        self.words, self.at, self.meaning = WORD.findall(text), 0, meaning

    def whole(self):
        found = self.choice()
        assert self.at == len(self.words), self.words[self.at:]
        return found

    def word(self):
        return self.words[self.at] if self.at < len(self.words) else None

    def choice(self):
        parts = [self.sequence()]
        while self.word() == '|':
            self.at += 1
            parts.append(self.sequence())
        return choice(parts)

    def sequence(self):
        parts = []
        while self.word() not in (None, '|', ')'):
            parts.append(self.repeated())
        return sequence(parts)

    def repeated(self):
        found = self.one()
        while self.word() in ('*', '+', '?'):
            sign = self.words[self.at]
            self.at += 1
            found = {'*': ('many', found), '+': ('sequence', found, ('many', found)), '?': ('choice', EMPTY, found)}[sign]
        return found

    def one(self):
        word = self.words[self.at]
        self.at += 1
        if word == '(':
            found = self.choice()
            assert self.word() == ')'
            self.at += 1
            return found
        return self.meaning(word)


def characters(rules, text):
    """The expression over characters of a right side; names are replaced by what their rules say."""
    def meaning(word):
        if word[0] in '\'"':
            return word_of(word[1:-1])
        if word[0] == '[':
            return ('letter', class_of(word[1:-1]))
        if word.startswith('#x'):
            return character(number_of(word))
        return characters(rules, rules[word])
    return Reader(text, meaning).whole()


def terminal(grammar, name):
    """The texts of a terminal, as an expression over characters."""
    return characters(TERMINALS[grammar], name)


def production(grammar, name, meaning):
    """The right side of a production, as an expression over the labels that `meaning` gives for names and texts in quotes."""
    return Reader(PRODUCTIONS[grammar][name], meaning).whole()
