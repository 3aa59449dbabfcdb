"""UTF-8: the kit's definitions, on which those of rdf_tokens stand, and the syntax of RFC 3629, section 4."""
import itertools
import random

from paths import kit_file

TAIL = (0x80, 0xBF)
SYNTAX = [      # UTF8-1 to UTF8-4, a row for each sequence of ranges
    [(0x00, 0x7F)],
    [(0xC2, 0xDF), TAIL],
    [(0xE0, 0xE0), (0xA0, 0xBF), TAIL], [(0xE1, 0xEC), TAIL, TAIL], [(0xED, 0xED), (0x80, 0x9F), TAIL], [(0xEE, 0xEF), TAIL, TAIL],
    [(0xF0, 0xF0), (0x90, 0xBF), TAIL, TAIL], [(0xF1, 0xF3), TAIL, TAIL, TAIL], [(0xF4, 0xF4), (0x80, 0x8F), TAIL, TAIL]]
BORDERS = sorted({it for row in SYNTAX for low, high in row for it in (low, high)} | {0xC0, 0xC1, 0xF5, 0xFF})

MODULES = {     # the modules of the kit in which the words on UTF-8 stand
    'Rattle.std.specs.Str': 'core/specs/Str.antt', 'Rattle.core.specs.Str': 'core/specs/Str.antt',
    'Rattle.std.specs.Str.Lossy': 'core/specs/Str/Lossy.antt', 'Rattle.std.specs.Char': 'core/specs/Char.antt',
    'lib.Utf8': 'logic/Lib/Utf8.antt', 'lib.Pointwise': 'logic/Lib/Pointwise.antt'}


def kit_modules():
    """The files of these modules, or None where they are not all there."""
    files = {name: kit_file(path) for name, path in MODULES.items()}
    return files if all(files.values()) else None


def fits(octets, row):
    return all(low <= octet <= high for octet, (low, high) in zip(octets, row))


def valid_length(octets):
    """How many of the bytes are characters."""
    at = 0
    while True:
        length = next((len(row) for row in SYNTAX if at + len(row) <= len(octets) and fits(octets[at:], row)), 0)
        if not length:
            return at
        at += length


def can_be_completed(octets):
    """Whether the bytes are the beginning of a character, and not all of it."""
    return any(len(octets) < len(row) and fits(octets, row) for row in SYNTAX)


def number(octets):
    """The number of the character of these bytes (section 3)."""
    found = octets[0] if len(octets) == 1 else octets[0] & (0x7F >> len(octets))
    for octet in octets[1:]:
        found = found << 6 | octet & 0x3F
    return found


def characters(octets):
    found, at = [], 0
    while at < len(octets):
        length = next(len(row) for row in SYNTAX if at + len(row) <= len(octets) and fits(octets[at:], row))
        found.append(number(octets[at:at + length]))
        at += length
    return tuple(found)


def tail(octets, is_end):
    """What follows the characters (`tail_of`)."""
    rest = octets[valid_length(octets):]
    if not rest:
        return 'ended' if is_end else 'goes_on'
    return 'broken' if is_end or not can_be_completed(rest) else 'goes_on'


def compare_bytes(specs, seed, longest, many):
    """Sequences of the bytes at the borders of the syntax: all of up to a length, and longer ones at random."""
    good, tail_of = (specs.function('rdf_tokens', 'Good', it) for it in ('good', 'tail_of'))
    chosen = random.Random('utf8 %s' % seed)
    sequences = [octets for length in range(longest + 1) for octets in itertools.product(BORDERS, repeat=length)]
    sequences += [tuple(chosen.choice(BORDERS) for _ in range(chosen.randint(longest + 1, 7))) for _ in range(many)]
    for octets in sequences:
        found = good(octets), tail_of(octets, True).name, tail_of(octets, False).name
        wanted = characters(octets[:valid_length(octets)]), tail(octets, True), tail(octets, False)
        yield None if found == wanted else 'UTF-8: %s: %s, not %s' % (bytes(octets), found, wanted)


def compare_characters(specs, step):
    """The bytes of each so many-th character, and of those at borders, and their number."""
    byte_len = specs.function('rdf_iri', 'Texts', 'byte_len')
    encode, length = specs.function('lib', 'Utf8', 'encode'), specs.function('Rattle.std.specs', 'Char', 'len_utf8')
    numbers = {*range(0, 0x110000, step), *(number(octets) for row in SYNTAX for octets in itertools.product(*row))}
    for c in sorted(it for it in numbers if not 0xD800 <= it <= 0xDFFF):
        octets = encode(c)
        is_one = any(len(octets) == len(row) and fits(octets, row) for row in SYNTAX)
        is_right = is_one and number(octets) == c and len(octets) == length(c) == byte_len((c,))
        yield None if is_right else 'UTF-8 of U+%04X: %s' % (c, octets)
