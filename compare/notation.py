"""Reads the notation of definitions: the statements of a file, and the clauses that compute.

Expressions and patterns are tuples:

    ('number', n)  ('string', s)  ('nil',)  ('name', x)  ('apply', f, x)  ('operator', o, l, r)  ('if', c, a, b)  ('lambda', x, body)
    ('pair', l, r)  ('field', e, x)  ('record', base or None, [(x, e)])

    ('number', n)  ('nil',)  ('name', x)  ('cons', head, tail)  ('constructor', x, [patterns])  ('implicit', x)
"""
import re


# Words of a line

WORD = re.compile(r'''\s+|(?P<string>"(?:\\.|[^"\\])*")|(?P<number>0x[0-9A-Fa-f_]+|[0-9][0-9_]*)|(?P<name>[A-Za-z_][A-Za-z0-9_']*)'''
                  r'''|(?P<mark>\+\+|==|&&|\|\||[][(){}=;,.:λ⊥⊤◌?→×≡≢≤<⊎↔∷*/%+^-]|[^\s\w"])''')
ESCAPES = {'n': '\n', 'r': '\r', 't': '\t', '0': '\0'}


class NoComputation(Exception):
    """The text is no clause that computes, as far as this interpreter reads them."""


def words_of(text):
    """The words as pairs of a sort and a text, and whether white space or an opening mark stands before each."""
    found, at = [], 0
    while at < len(text):
        word = WORD.match(text, at)
        if word is None:
            raise NoComputation('no word: ' + text[at:at + 30])
        if word.lastgroup:
            found.append((word.lastgroup, word.group(), at == 0 or text[at - 1].isspace() or text[at - 1] in '([{,;'))
        at = word.end()
    return found


def literal_string(word):
    return re.sub(r'\\(.)', lambda it: ESCAPES.get(it[1], it[1]), word[1:-1])


class Parser:
    """Reads one expression, or the patterns of a clause."""

    def __init__(self, text, operators):
        self.words, self.at, self.operators = words_of(text), 0, operators

    def word(self):
        return self.words[self.at][1] if self.at < len(self.words) else None

    def sort(self):
        return self.words[self.at][0] if self.at < len(self.words) else None

    def is_apart(self):
        return self.at >= len(self.words) or self.words[self.at][2]

    def next(self):
        if self.at == len(self.words):
            raise NoComputation('the text ends')
        self.at += 1
        return self.words[self.at - 1][1]

    def take(self, word):
        found = self.next()
        if found != word:
            raise NoComputation('%s where %s is expected' % (found, word))

    def whole_expression(self):
        found = self.expression()
        if self.at < len(self.words):
            raise NoComputation('%s goes on after an expression' % self.word())
        return found

    def expression(self, least=0):
        if self.word() == 'λ':
            return self.function()
        if self.word() == 'if':
            return self.choice()
        if self.word() == 'let':
            return self.definition()
        left = self.application()
        while self.word() in self.operators and self.operators[self.word()][0] >= least:
            operator = self.next()
            strength, side = self.operators[operator]
            left = ('operator', operator, left, self.expression(strength + 1 if side == 'l' else strength))
        return left

    def function(self):
        self.take('λ')
        names = []
        while self.word() != '.':
            names.append(self.next())
        self.take('.')
        body = self.expression()
        for name in reversed(names):
            body = ('lambda', name, body)
        return body

    def choice(self):
        parts = []
        for word in ('if', 'then', 'else'):
            self.take(word)
            parts.append(self.expression())
        return ('if', *parts)

    def definition(self):
        self.take('let')
        name = self.next()
        self.take('=')
        value = self.expression()
        self.take('in')
        return ('apply', ('lambda', name, self.expression()), value)

    def begins_atom(self):
        return self.sort() in ('name', 'number', 'string') and self.word() not in ('then', 'else', 'in') or self.word() in ('(', '[')

    def application(self):
        found = self.atom()
        arguments = []
        while self.begins_atom() or self.word() == 'λ':
            arguments.append(self.expression() if self.word() == 'λ' else self.atom())
        if found == ('name', 'cond') and len(arguments) >= 3:
            found, arguments = ('if', *arguments[:3]), arguments[3:]
        for argument in arguments:
            found = ('apply', found, argument)
        return found

    def atom(self):
        sort, word = self.sort(), self.next()
        if word == 'record':
            found = self.record()
        elif sort == 'name':
            found = ('name', word)
        elif sort == 'number':
            found = ('number', int(word, 0))
        elif sort == 'string':
            found = ('string', literal_string(word))
        elif word == '[':
            self.take(']')
            found = ('nil',)
        elif word == '(':
            found = self.in_parentheses()
        else:
            raise NoComputation('no expression begins with ' + word)
        while self.word() == '.' and not self.is_apart():
            self.next()
            found = ('field', found, self.next())
        return found

    def in_parentheses(self):
        found = self.expression()
        if self.word() == ',':
            self.next()
            return ('pair', found, self.in_parentheses())
        self.take(')')
        return found

    def record(self):
        base = None if self.word() == '{' else self.atom()
        self.take('{')
        fields = []
        while self.word() != '}':
            name = self.next()
            self.take('=')
            fields.append((name, self.expression()))
            if self.word() == ';':
                self.next()
        self.take('}')
        return ('record', base, fields)

    def patterns(self):
        found = []
        while self.at < len(self.words):
            found.append(self.pattern_atom())
        return found

    def pattern(self):
        found = self.pattern_application()
        if self.word() == '∷':
            self.next()
            return ('cons', found, self.pattern())
        if self.word() in self.operators:
            return ('constructor', self.next(), [found, self.pattern_application()])
        return found

    def pattern_application(self):
        found = self.pattern_atom()
        arguments = []
        while self.begins_atom():
            arguments.append(self.pattern_atom())
        return ('constructor', found[1], arguments) if arguments else found

    def pattern_atom(self):
        sort, word = self.sort(), self.next()
        if sort == 'number':
            return ('number', int(word, 0))
        if sort == 'name':
            while self.word() == '.' and not self.is_apart():
                self.next()
                word = self.next()
            return ('name', word)
        if word == '[':
            self.take(']')
            return ('nil',)
        if word == '(':
            found = self.pattern()
            self.take(')')
            return found
        if word == '{':
            found = ('implicit', self.next())
            self.take('}')
            return found
        raise NoComputation('no pattern begins with ' + word)


# Statements

def logical_lines(text):
    """The statements of a file, each with the lines that are its own: continuation lines joined, constructors of a type apart."""
    statements, is_mutual, is_type = [], False, False
    for line in text.split('\n'):
        if not line.strip() or line.lstrip().startswith('--'):
            continue
        indent = len(line) - len(line.lstrip())
        base = 2 if is_mutual and indent else 0
        if indent == 0 and line.split()[-1] == 'mutual':
            is_mutual = True
        elif indent == base and not line.startswith('}'):
            is_mutual = is_mutual and indent > 0
            statements.append([line.strip()])
            is_type = re.match(r'(pub )?(data|record)\b', line.strip()) is not None
        elif is_type and indent == base + 2:
            statements[-1].append(line.strip())
        else:
            statements[-1][-1] += ' ' + line.strip()
    return statements


def clause_parts(line):
    """The left side without its first words, the name, and the right side; None where the line is a signature or something else."""
    depth = 0
    for it in re.finditer(r'"(?:\\.|[^"\\])*"|[({]|[)}]|(?<= )=(?= |$)|(?<= ):(?= )', line):
        depth += it[0] in '({'
        depth -= it[0] in ')}'
        if depth == 0 and it[0] in '=:':
            if it[0] == ':':
                return None
            left = re.sub(r'^((abbrev|unfoldable|pub) +)*', '', line[:it.start()]).strip()
            name = left.split()[0]
            return name, left[len(name):].strip(), line[it.end():].strip()
    return None
