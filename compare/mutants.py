"""Planted mistakes: edits of the definitions' text, in memory, that a comparison has to see."""
from collections import namedtuple

Mutant = namedtuple('Mutant', 'says place old new comparison')
CLASSES, TERMINALS, VALUES = ('rdf_terms', 'Classes'), ('rdf_terms', 'Terminals'), ('rdf_terms', 'Values')
TREES, LINES, TOKENS, GOOD = ('rdf_trig', 'TreeTokens'), ('rdf_lines', 'Lines'), ('rdf_tokens', 'Tokens'), ('rdf_tokens', 'Good')
DOTS, PARTS, RESOLVE, RESOLUTION = (('rdf_iri', it) for it in ('Dots', 'Parts', 'Resolve', 'Resolution'))
WRITING, PREFIXES = ('rdf_lines', 'Writing'), ('rdf_lines', 'NodePrefixes')
NAMES, QUADS, EVENTS, OWED, TREE_QUADS = (('rdf_trig', it) for it in ('Names', 'Quads', 'Events', 'Owed', 'TreeQuads'))
DOCUMENTS = ('rdf_trig', 'Documents')

MUTANTS = [
    # terminals
    Mutant('a class with one code point less', CLASSES, '0x2070 0x218F', '0x2070 0x218E', 'rows'),
    Mutant('a class without its last character', CLASSES, '0x10000 0xEFFFF', '0x10000 0xEFFFE', 'rows'),
    Mutant('no colon in labels of the line formats', CLASSES, '|| c == code "_" || c == code ":"', '|| c == code "_"',
           'rows'),
    Mutant('surrogates are characters', CLASSES, 'within 0 0xD7FF c || within 0xE000 0x10FFFF c', 'within 0 0x10FFFF c', 'rows'),
    Mutant('a space in an IRIREF', CLASSES, 'nat_le c 0x20', 'nat_le c 0x1F', 'rows'),
    Mutant('a prefix ends with no digit', TERMINALS, '(many (one (pn_char Turtle) ∣ dot) · one (pn_char Turtle))\n\n-- PLX',
           '(many (one (pn_char Turtle) ∣ dot) · one (pn_u Turtle))\n\n-- PLX', 'rows'),
    Mutant('digits after the dot of a double', TERMINALS, 'dot · many (one digit) · exponent', 'dot · digits · exponent', 'rows'),
    Mutant('one quote at most in a long string', TERMINALS, 'optional (quote ∣ quote · quote)', 'optional quote', 'rows'),
    Mutant('a local part ends with a dot', TERMINALS, '∣ plx) · (one (pn_char Turtle) ∣ one',
           '∣ plx) · (one (pn_char Turtle) ∣ dot ∣ one', 'rows'),
    Mutant('a tag ends with a hyphen', TERMINALS, '· some (one letter_or_digit)', '· many (one letter_or_digit)', 'parts'),
    Mutant('keywords in capitals alone', TERMINALS, '(one (the c) ∣ one (the (c + 32)))', 'one (the c)', 'rows'),
    Mutant('a label may be a name too', TERMINALS, 'shape d PnameNs = only_turtle d (optional pn_prefix',
           'shape d PnameNs = only_turtle d (optional (one (the (code "_")) ∣ pn_prefix)', 'rows'),
    Mutant('no row for a comma', TERMINALS, 'shape d Comma = only_turtle d (word (codes ","))\n', '', 'rows'),
    Mutant('a true that is a graph', TERMINALS, '(word (codes "true"))', '(any_case (codes "GRAPH"))', 'kinds'),
    Mutant('LF is no white space in Turtle', TOKENS, '|| c == code "\\t" || is_line_end c', '|| c == code "\\t"', 'parts'),
    # productions
    Mutant('a production with its option dropped', TREES,
           '  more_tokens (semicolon l m) = (token Semicolon l ∷ []) ++ more_tokens m\n', '', 'trees'),
    Mutant('no dot before a closing brace', TREES, 'block_tokens (last_dot t d) = triples_tokens t ++ (token Dot d ∷ [])\n', '', 'trees'),
    Mutant('a property list needs predicates after it', TREES, 'list_tokens p ++ maybe_tokens predicates_tokens ps\n',
           'list_tokens p ++ predicates_tokens ps\n', 'trees'),
    Mutant('@prefix is no tag', TREES, 'tag_tokens (prefix_tag l) = token AtPrefix l ∷ []\n', '', 'trees'),
    Mutant('a block with two labels', TREES, '(token Graph l ∷ []) ++ label_tokens g', '(token Graph l ∷ []) ++ label_tokens g ++ label_tokens g',
           'trees'),
    Mutant('an empty collection is none', TREES, 'items_tokens no_items = []', 'items_tokens (no_items o) = object_tokens o', 'trees'),
    Mutant('a string has no tag in lines', LINES, 'object_tokens (WithTag s t) = token ShortString s ∷ token LangTag t ∷ []\n', '', 'lines'),
    Mutant('a line needs a statement', LINES, 'line_tokens empty = []\n', '', 'lines'),
    Mutant('graph labels in N-Triples', LINES, 'graph_fits NTriples g = g ≡ None', 'graph_fits NTriples g = Unit', 'lines'),
    # UTF-8, references, values
    Mutant('a character that is cut by the end is no error', GOOD, 'cond (is_end || is_some', 'cond (is_some', 'utf8'),
    Mutant('rule A for "../" alone', DOTS, ' || begins (codes "./") s.input) (walk (cond', ') (walk (cond', 'dots'),
    Mutant('rule C keeps the last segment', DOTS, '(walk (code "/" ∷ drop 4 s.input) (parent s.output))\n',
           '(walk (code "/" ∷ drop 4 s.input) s.output)\n', 'dots'),
    Mutant('a query is cut before the fragment', PARTS, 'hierarchy_parts scheme (after (code "?") (before (code "#") w))',
           'hierarchy_parts scheme (after (code "?") w)', 'parts of references'),
    Mutant('an empty reference drops the query', RESOLVE, 'query = or_else r.query b.query', 'query = r.query', 'examples'),
    Mutant('merge forgets the slash after an authority', RESOLUTION, 'merge_onto (Some a) [] path = code "/" ∷ path',
           'merge_onto (Some a) [] path = path', 'resolved'),
    Mutant('\\t is a backspace', VALUES, '(c == code "t") (means (code "\\t"))', '(c == code "t") (means 0x08)', 'values'),
    Mutant('an escape may stand for a space in an IRI', VALUES, 'allowed of_iri c = cond (has iri_char c) (means c) fails',
           'allowed of_iri c = means c', 'values'),
    Mutant('letters of hex digits count one less', ('rdf_terms', 'Pieces'), '(c - 55) (c - 87)', '(c - 56) (c - 87)', 'values'),
    Mutant('an apostrophe is no local escape', CLASSES, "one_of (codes \"_~.-!$&'()*+,;=/?#@%\")", 'one_of (codes "_~.-!$&()*+,;=/?#@%")', 'values'),
    Mutant('rdf:nil in capitals', ('rdf_terms', 'Known'), '22-rdf-syntax-ns#nil', '22-rdf-syntax-ns#Nil', 'known'),
    # names and written lines
    Mutant('two nodes have one name', WRITING, 'Label (code "a" ∷ decimal n)', 'Label (code "c" ∷ decimal n)', 'names'),
    Mutant('a word behind the name', PREFIXES, 'Label (p ++ x)', 'Label (x ++ p)', 'names'),
    Mutant('CR is written as it is', WRITING, '(cond (c == code "\\r") (codes "\\\\r") (written e c))', '(written e c)', 'back'),
    Mutant('three hex digits after \\u', WRITING, '∷ code "u" ∷ hex_digits (0x1000 ∷ 0x100', '∷ code "u" ∷ hex_digits (0x100', 'written'),
    Mutant('U+0080 in ASCII', WRITING, 'nat_le c 0x7F', 'nat_le c 0x80', 'written'),
    Mutant('every type is written', WRITING, 'type_text e true i = []', 'type_text e true i = code "^" ∷ code "^" ∷ iri_text e i', 'documents'),
    # tokens
    Mutant('empty strings before a quote', TOKENS, '(longest d (c ∷ w) (length (c ∷ w)))', '(longest d (c ∷ w) 2)', 'tokens'),
    Mutant('a comment goes on over LF', TOKENS, 'is_line_end c = c == code "\\n" || c == code "\\r"', 'is_line_end c = c == code "\\r"', 'tokens'),
    Mutant('a token of as many characters as the limit is over it', TOKENS, 'nat_lt limit (length w)', 'nat_lt limit (length w + 1)', 'tokens'),
    Mutant('a token that can go on is decided', TOKENS, 'by_tail d goes_on w true = stop undecided\n', 'by_tail d goes_on w true = decided d w\n',
           'tokens'),
    Mutant('bad bytes where the token before them begins', TOKENS, 'stop_place bad_utf8 p w = past p w', 'stop_place bad_utf8 p w = p', 'tokens'),
    Mutant('two byte order marks', GOOD, 'cond (has_byte_order_mark w) 1 0', 'cond (has_byte_order_mark w) 2 0', 'tokens'),
    Mutant('an empty string and a quote in place of a long string', TOKENS, 'only_long true (Some k) = None', 'only_long true (Some k) = Some k',
           'words'),
    Mutant('offsets count characters', TOKENS, 'p.offset + len_utf8 c', 'p.offset + 1', 'words'),
    # quads, refusals, what is owed
    Mutant('rdf:rest before what is in the item', EVENTS,
           'items_events c (item o os) r rest = object_events c o (node (cell_of o)) (Some (known_chars RdfFirst)) None (rest',
           'items_events c (item o os) r rest = give (rest_quad c (cell_of o) (items_of os)) (object_events c o (node (cell_of o)) '
           '(Some (known_chars RdfFirst)) None (rest', 'documents'),
    Mutant('the quad of a list comes after it', EVENTS, 'take OpenBracket l (give early (give q (predicates_events c ps (node (anon_at l)) '
           '(take CloseBracket r rest))))', 'take OpenBracket l (give early (predicates_events c ps (node (anon_at l)) '
           '(take CloseBracket r (give q rest))))', 'documents'),
    Mutant('a comma is no token of the events', EVENTS, 'commas_events c (comma l o os) s p rest = take Comma l (object_events c o s p None (commas_events c os s p rest))',
           'commas_events c (comma l o os) s p rest = object_events c o s p None (commas_events c os s p rest)', 'documents'),
    Mutant('a mark one token early', TREE_QUADS, 'record { item = q; mark = n } ∷ []', 'record { item = q; mark = n - 1 } ∷ []', 'documents'),
    Mutant('the base stays', NAMES, 'scope_after s (sparql_base w i) = with_base s (reference_in s i)', 'scope_after s (sparql_base w i) = s',
           'documents'),
    Mutant('the first binding of a prefix stays', NAMES, '((prefix, iri) ∷ es)', '(e ∷ es)', 'cases'),
    Mutant('a cell named by the next item', QUADS, 'items_of (item o os) = Blank (cell_of o)', 'items_of (item o os) = items_of os', 'documents'),
    Mutant('triples in braces are in the default graph', QUADS, 'in_graph s g = record { scope = s; graph = option_map Some g }',
           'in_graph s g = record { scope = s; graph = Some None }', 'documents'),
    Mutant('a label with its `_:`', QUADS, 'labelled l = Label (drop 2 l.text)', 'labelled l = Label (drop 1 l.text)', 'documents'),
    Mutant('the tag is the string', LINES, 'Lang (drop 1 t.text)', 'Lang (drop 1 s.text)', 'line documents'),
    Mutant('the mark of a line is its dot', LINES, 'n + length (head_tokens s)', 'n + length (statement_tokens s)', 'line documents'),
    Mutant('a subject is owed before its verb', OWED, 'subject_held s b (iri_subject i) rest = b ∷ rest',
           'subject_held s b (iri_subject i) rest = (b + subject_size s (iri_subject i)) ∷ rest', 'owed'),
    Mutant('a verb is not owed after a comma', OWED, 'b ∷ object_held s b o (commas_held', '0 ∷ object_held s b o (commas_held', 'owed'),
    Mutant('a bracket closes nothing', DOCUMENTS, 'closes CloseBracket = 1', 'closes CloseBracket = 0', 'limits'),
    Mutant('one prefix more than the limit', NAMES, 'nat_le s.limits.bindings (length s.bindings)',
           'nat_lt s.limits.bindings (length s.bindings)', 'limits'),
]
