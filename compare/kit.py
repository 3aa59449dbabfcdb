"""The values of the definitions in Python, and what the definitions take from the kit.

    a number, a truth value     int, bool
    a list, a pair              tuple, Pair
    a constructor's value       Con, with its name and its arguments
    a record                    Record, a dict by the names of its fields
"""


# Values

class Con:
    """A value that a constructor makes. Applied to one more value it is the same constructor with one argument more."""
    __slots__ = ('name', 'args')

    def __init__(self, name, args=()):
        self.name, self.args = name, args

    def __call__(self, value):
        return Con(self.name, self.args + (value,))

    def __eq__(self, other):
        return isinstance(other, Con) and self.name == other.name and self.args == other.args

    def __hash__(self):
        return hash((self.name, self.args))

    def __repr__(self):
        return self.name if not self.args else '(%s)' % ' '.join([self.name, *map(repr, self.args)])


class Pair(tuple):
    """A pair, whose parts are `.0` and `.1`. A triple is a pair whose second part is a pair."""


class Record(dict):
    """A record by the names of its fields."""

    def __hash__(self):
        return hash(tuple(sorted(self.items(), key=lambda it: it[0])))


NONE = Con('None')


def some(value):
    return Con('Some', (value,))


def value_in(option):
    """What an option holds, or None."""
    return option.args[0] if option.name == 'Some' else None


def text_of(text):
    """A Python string as the list of its characters' numbers."""
    return tuple(map(ord, text))


def string_of(codes):
    """The list of the numbers of characters as a Python string."""
    return ''.join(map(chr, codes))


# What the definitions take from the kit

def utf8_length(c):
    return 1 if c < 0x80 else 2 if c < 0x800 else 3 if c < 0x10000 else 4


def valid_length(octets):
    """How many of the bytes are UTF-8, by Python."""
    try:
        bytes(octets).decode('utf-8')
    except UnicodeDecodeError as error:
        return error.start
    return len(octets)


def error_length(octets):
    """None where more bytes can complete the character that is begun, by Python."""
    try:
        bytes(octets).decode('utf-8')
    except UnicodeDecodeError as error:
        return NONE if error.reason == 'unexpected end of data' else some(error.end - error.start)
    return NONE


def concatenated(lists):
    return tuple(it for part in lists for it in part)


BUILTINS = {    # how many arguments, and the function; a function that is an argument takes one argument
    'suc': (1, lambda n: n + 1),
    'max': (2, max),
    'nat_le': (2, lambda m, n: m <= n),
    'leb': (2, lambda m, n: m <= n),
    'nat_lt': (2, lambda m, n: m < n),
    'ltb': (2, lambda m, n: m < n),
    'nat_eq': (2, lambda m, n: m == n),
    'is_in_range': (3, lambda low, high, n: low <= n <= high),
    'not': (1, lambda b: not b),
    'length': (1, len),
    'take': (2, lambda n, w: w[:n]),
    'drop': (2, lambda n, w: w[n:]),
    'slice_index': (2, lambda w, n: w[n] if n < len(w) else 0),
    'map': (2, lambda f, w: tuple(f(c) for c in w)),
    'flat_map': (2, lambda f, w: concatenated(f(c) for c in w)),
    'concat': (1, concatenated),
    'count_by': (2, lambda f, w: sum(1 for c in w if f(c))),
    'sum_by': (2, lambda f, w: sum(f(c) for c in w)),
    'bytes_eq': (2, lambda v, w: v == w),
    'is_some': (1, lambda o: o.name == 'Some'),
    'option_map': (2, lambda f, o: some(f(o.args[0])) if o.name == 'Some' else NONE),
    'unwrap_or': (2, lambda o, other: o.args[0] if o.name == 'Some' else other),
    'code': (1, ord),
    'codes': (1, text_of),
    'decimal': (1, lambda n: text_of(str(n))),
    'len_utf8': (1, utf8_length),
    'chars': (1, lambda w: text_of(bytes(w).decode('utf-8'))),
    'encode_utf8_all': (1, lambda w: tuple(string_of(w).encode('utf-8'))),
    'utf8_valid_len': (1, valid_length),
    'utf8_error_len': (1, error_length),
}
CONSTANTS = {'true': 'True', 'false': 'False', 'zero': '0'}
CONSTRUCTORS = {'None', 'Some'}
OPERATORS = {   # the kit's own, by how tightly they bind and to which side they group
    '||': (30, 'l'), '&&': (35, 'l'), '==': (50, 'l'), '∷': (60, 'r'), '++': (60, 'r'), '+': (65, 'l'), '-': (65, 'l'),
    '*': (70, 'l'), '/': (70, 'l'), '%': (70, 'l'), '^': (75, 'r')}
IN_PYTHON = {
    '||': '({} or {})', '&&': '({} and {})', '==': '({} == {})', '∷': '(({},) + {})', '++': '({} + {})', '+': '({} + {})',
    '-': 'max({} - {}, 0)', '*': '({} * {})', '/': '({} // {})', '%': '({} % {})', '^': '({} ** {})'}
