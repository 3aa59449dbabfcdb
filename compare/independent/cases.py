"""Documents written by hand, with what has to come of each, in groups by what they test.

    from cases import cases, REFERENCES

A row is a document and the lines that are written for it, without ' .', with `rdf:` and `xsd:` for the two vocabularies; or a reason and
documents that are refused for it, where ¦ marks the place. A lone surrogate from U+DC80 to U+DCFF stands for a byte that is no UTF-8.
"""
import re
from collections import namedtuple

from reader import RDF, XSD

Case = namedtuple('Case', 'group form document lines refusal')     # refusal: the reason and the byte; the lines are None where one comes

U, N, E, BAD, REL, BASE, UNBOUND = 'unexpected token', 'no token', 'bad escape', 'bad UTF-8', 'relative IRI', 'no base', 'unbound prefix'
REASONS = (U, N, E, BAD, REL, BASE, UNBOUND)
P = 'PREFIX : <e:> '
SPO = '<e:s> <e:p> <e:o>'

# Objects of `:s :p OBJECT .`, and how they are written.
OBJECTS = [
    ('""', '""'), ("''", '""'), ('""""""', '""'), ("''''''", '""'), ("'it\"s'", '"it\\"s"'), ('"it\'s"', '"it\'s"'),
    ('"""a"b""c"""', '"a\\"b\\"\\"c"'), ("'''a'b''c'''", '"a\'b\'\'c"'), ('""""a"""', '"\\"a"'), ("'''''a'''", '"\'\'a"'),
    ('"""a\\""""', '"a\\""'), ("'''a\\\\'''", '"a\\\\"'), ('"""1\n2\r3\r\n4"""', '"1\\n2\\r3\\r\\n4"'),
    ('"\\t\\b\\n\\r\\f\\"\\\'\\\\"', '"\t\b\\n\\r\f\\"\'\\\\"'), ('"\\u0042\\U0001F63A"', '"B\U0001F63A"'),
    ('"\\u0000\\u005C\\u0022\\u000a\\u000D"', '"\x00\\\\\\"\\n\\r"'), ('"\\\\u0041"', '"\\\\u0041"'),
    ('"\x00\t\x0B\x0C\x7F\x80\uD7FF\uE000\uFFFE\uFFFF\U0010FFFF"', '"\x00\t\x0B\x0C\x7F\x80\uD7FF\uE000\uFFFE\uFFFF\U0010FFFF"'),
    ('"#" # "\n', '"#"'), ('"a"@en', '"a"@en'), ('"a" @de-AT-1a #c\n', '"a"@de-AT-1a'), ("'''a'''@x", '"a"@x'), ('"a"@prefix', '"a"@prefix'),
    ('"a" @base', '"a"@base'), ('"a"@prefix-x', '"a"@prefix-x'), ('"a"@Base', '"a"@Base'), ('"a"^^:t', '"a"^^<e:t>'),
    ("'a' ^^ #c\n <x:t>", '"a"^^<x:t>'), ('"a"^^:', '"a"^^<e:>'), ('"a"^^<%sstring>' % XSD, '"a"'),
    ('"a"^^<%slangString>' % RDF, '"a"^^rdf:langString'), ('7', '"7"^^xsd:integer'), ('+07', '"+07"^^xsd:integer'), ('-0', '"-0"^^xsd:integer'),
    ('7.50', '"7.50"^^xsd:decimal'), ('-.5', '"-.5"^^xsd:decimal'), ('+7.e0', '"+7.e0"^^xsd:double'), ('.5E-07', '".5E-07"^^xsd:double'),
    ('7e+1', '"7e+1"^^xsd:double'), ('7.5e1', '"7.5e1"^^xsd:double'), ('true', '"true"^^xsd:boolean'), ('false', '"false"^^xsd:boolean'),
    ('()', 'rdf:nil'), ('( #c\n)', 'rdf:nil'), (':', '<e:>'), (':a.b', '<e:a.b>'), (':a..b', '<e:a..b>'), ('::', '<e::>'), (':a:', '<e:a:>'),
    (':0.1', '<e:0.1>'), (':_', '<e:_>'), (':a-', '<e:a->'), (':e5', '<e:e5>'), (':%4a%Fb.c', '<e:%4a%Fb.c>'),
    ("\\".join(":_~.-!$&'()*+,;=/?#@%"), "<e:_~.-!$&'()*+,;=/?#@%>"), (':a\\.', '<e:a.>'), (':a·\u0300', '<e:a·\u0300>'), (':a#b\n', '<e:a>'),
    (':a\\#b', '<e:a#b>'), ('<x:a#b>', '<x:a#b>'), ('<\\u0078\\U0000003Ab>', '<x:b>'),
    ("<x:!$&'()*+,;=/?#[]@-._~%zz\x7F\x80\u2028\uFFFE>", "<x:!$&'()*+,;=/?#[]@-._~%zz\x7F\x80\u2028\uFFFE>"), ('_:b', '_:nb'),
    ('_:0.a-', '_:n0.a-'),
]
# Objects of `:s :p OBJECT .` that are refused: the ones that are no tokens, and others.
REFUSED_OBJECTS = [
    (N, '¦-o', ':o¦%4', ':o¦%4g', ':o¦\\:', ':¦\\u0041', ':o¦/x', '¦+', '¦+-7', '7¦e', '7¦x', '7.¦x', '¦True', '¦FALSE', '¦"""', '¦"""a""',
     "¦'''a''", '""""""¦"', '¦"a\n"', '¦"a\r"', '¦"a\'', '¦"""a\\"""', '¦"\\u12"', '¦"\\U0001F60"', '¦"\\a"', '¦"\\/"', '¦"\\u00g0"', '"a"¦@',
     '"a"¦@1', '"a"@a¦-', '"a"@a-b¦_c', '"a"¦^ ^:t', '¦?v', ':o¦!:p', ':o¦^:p', ':o¦|', '¦<x:a b>', '¦<x:a', '¦<x:\\n>', '¦<x:\\u00zz>',
     '¦<x:\\U000041>', '¦_:', '¦_:-a', '¦_:.a', ':o\u0300¦\x00', ':o¦\xA0', '¦<<:s :p :o>>', ':o¦=:p', '¦€', '¦<\n>'),
    (E, '¦"\\uD800"', '¦"\\uDFFF"', '¦"\\U0000DABC"', '¦"\\U00110000"', '¦"\\UFFFFFFFF"', "¦'''\\uD83D\\uDE00'''", '¦<x:\\uD83D\\uDE00>',
     '¦<x:\\u0020>', '¦<x:\\u0000>', '¦<x:\\u003C>', '¦<x:\\U0000003e>', '¦<x:\\u0022>', '¦<x:\\u005c>', '¦<x:\\u005E>', '¦<x:\\u0060>',
     '¦<x:\\u007b>', '¦<x:\\u007C>', '¦<x:\\u007D>'),
    (U, '¦. .', '¦a', '¦GRAPH', '7¦-1', '7.¦.', '7.5¦.5', '7¦@en', '7¦^^:t', '¦@en', '¦^^', '"a"@a¦^^:t', '"a"^^:t¦@a', '"a"^^¦"b"', '"a"^^¦_:b',
     '"a"^^¦[]', '"a"¦"b"', ':o ¦:o :o', ':o ¦]', ':o ¦)', ':o,¦;', ':o ¦{', '(:o ¦, :o)', '(¦.)', '[¦;:p :o]', '[:p ¦]', '[:p :o ¦)', '[¦(]',
     '¦,', '¦;'),
    (UNBOUND, '¦x:o', '¦true.x:o', '"a"^^¦x:t', '(¦x:)', ':o, ¦a:o', '[¦x:p :o]', '¦é:'),
    (BASE, '¦<>', '¦<o>', '"a"^^¦<t>', '¦<//o>', '¦<1:o>', '¦<é:o>', '¦<\\u0031:o>'),
]
GROUPS = [
    ('statements', 'ttl', P, [
        (':s :p :o, :q; a :c;; :r :t; .', SPO, '<e:s> <e:p> <e:q>', '<e:s> rdf:type <e:c>', '<e:s> <e:r> <e:t>'),
        (':s<e:p>:o .:s<e:p>:o.', SPO, SPO), (':s a<e:o>.', '<e:s> rdf:type <e:o>'), (':s a"a".', '<e:s> rdf:type "a"'),
        (':::: :: : .', '<e::::> <e::> <e:>'),
        (U, '¦.', ':s ¦.', ':s :p :o . ¦.', ':s ¦; :p :o .', ':s :p ¦; :p :o .', ':s¦', ':s :p :o¦', '¦, .', '¦a a :o .', '¦"s" :p :o .',
         '¦true :p :o .', '¦7 :p :o .', ':s ¦"p" :o .', ':s ¦7 :o .', ':s ¦true :o .', ':s ¦_:p :o .', ':s ¦[] :o .', ':s ¦() :o .', '[]¦.',
         '()¦.', '(:s) ¦.', '[ ] ¦] .', ':s :p :o,¦.', ':s :p [:p :o¦.', ':s :p (:o ¦.', ':s :p [ :p ¦', ':s :p ( ¦', '_:b¦. :p :o .',
         '¦] :p :o .'),
        (N, ':s ¦= :o .', ':s ¦=> :o .', ':s ¦is :p of :o .', ':s ¦A :o .', '¦s :p :o .', ':s¦\x0B:p :o .', ':s ¦\x0C:p :o .'),
        (UNBOUND, ':s ¦a:o .', '¦x:s :p :o .', ':s ¦x: :o .'),
    ]),
    ('brackets', 'ttl', '', [
        ('[] <e:p> [ ] .', '_:a0 <e:p> _:a9'), ('[<e:p> <e:o>;].', '_:a0 <e:p> <e:o>'),
        ('[<e:p> 1] a[].', '_:a0 <e:p> "1"^^xsd:integer', '_:a0 rdf:type _:a11'), ('[a[a[]]].', '_:a0 rdf:type _:a2', '_:a2 rdf:type _:a4'),
        ('[#c\n]a[#]\n].', '_:a0 rdf:type _:a6'), ('() a () .', 'rdf:nil rdf:type rdf:nil'),
        ('<e:s> a [ a 1 ], 2 .', '<e:s> rdf:type _:a8', '_:a8 rdf:type "1"^^xsd:integer', '<e:s> rdf:type "2"^^xsd:integer'),
        ('(1 <e:o>) a 2 .', '_:c1 rdf:first "1"^^xsd:integer', '_:c1 rdf:rest _:c3', '_:c3 rdf:first <e:o>', '_:c3 rdf:rest rdf:nil',
         '_:c1 rdf:type "2"^^xsd:integer'),
        ('[] a (([])()) .', '_:a0 rdf:type _:c6', '_:c6 rdf:first _:c7', '_:c7 rdf:first _:a7', '_:c7 rdf:rest rdf:nil', '_:c6 rdf:rest _:c10',
         '_:c10 rdf:first rdf:nil', '_:c10 rdf:rest rdf:nil'),
        ('[] a (1.5.5-7) .', '_:a0 rdf:type _:c6', '_:c6 rdf:first "1.5"^^xsd:decimal', '_:c6 rdf:rest _:c9', '_:c9 rdf:first ".5"^^xsd:decimal',
         '_:c9 rdf:rest _:c11', '_:c11 rdf:first "-7"^^xsd:integer', '_:c11 rdf:rest rdf:nil'),
    ]),
    ('directives', 'ttl', '', [
        ('pReFiX p: <x:> BaSe <x:/y/> <c> p: p:c .', '<x:/y/c> <x:> <x:c>'), ('@prefix:<x:>.@base<y:/z>.:s<p>().', '<x:s> <y:/p> rdf:nil'),
        ('@base <x:/y/> . @base <z/> . PREFIX q: <#> <a> q:b <?c> .', '<x:/y/z/a> <x:/y/z/#b> <x:/y/z/?c>'),
        ('PREFIX p: <x:1> p:s p:p p:o . PREFIX p: <x:2> p:s a p:o .', '<x:1s> <x:1p> <x:1o>', '<x:2s> rdf:type <x:2o>'),
        ('@prefix a: <x:> . a:a a a:a .', '<x:a> rdf:type <x:a>'),
        ('@prefix true: <x:> . true:true true: true .', '<x:true> <x:> "true"^^xsd:boolean'),
        ('PREFIX PREFIX: <x:> PREFIX:BASE PREFIX:GRAPH PREFIX: .', '<x:BASE> <x:GRAPH> <x:>'),
        ('PREFIX v.w: <x:> v.w:s.t v.w: v.w:o.', '<x:s.t> <x:> <x:o>'),
        ('@prefix aÀ·\u0300.\u203F-: <x:> . aÀ·\u0300.\u203F-:s a 1 .', '<x:s> rdf:type "1"^^xsd:integer'),
        (U, '@prefix p: <x:> ¦PREFIX q: <y:>', 'PREFIX p: <x:> ¦.', 'BASE <x:> ¦.', '@base <x:>¦', '¦@PREFIX p: <x:> .', '¦@Base <x:> .',
         '@prefix ¦<x:> .', '@base ¦p:x .', '@prefix ¦p:x <x:> .', '@prefix p: ¦"x" .', '¦@en .', '@prefix ¦.p: <x:> .', '@prefix ¦0p: <x:> .',
         '¦@prefixp: <x:> .', '¦@forAll :x .', '@prefix¦'),
        (N, '@prefix ¦p <x:> .', '@prefix ¦p.: <x:> .', '@prefix ¦_: <x:> .', '@prefix ¦-p: <x:> .', '¦@'),
        (UNBOUND, '¦PREFIX: <x:>'),
        (BASE, 'BASE ¦<x> <x:s> a 1 .', '@prefix p: ¦<x> .', 'PREFIX p: ¦<#>'),
    ]),
    ('graphs', 'trig', P, [
        ('{}',), ('{:s :p :o}', SPO), ('{:s :p :o.}', SPO), (':g{}',), (':g{:s :p :o;}', SPO + ' <e:g>'),
        ('gRaPh<e:g>{:s :p :o . :s :p :o}', SPO + ' <e:g>', SPO + ' <e:g>'),
        ('GRAPH _:g{:s :p _:g} _:g :p :o .', '<e:s> <e:p> _:ng _:ng', '_:ng <e:p> <e:o>'),
        (':g {:s :p :o} :s :p :o . {:s :p :o} :g {:s :p :o}', SPO + ' <e:g>', SPO, SPO, SPO + ' <e:g>'), ('[]{:s :p :o}', SPO + ' _:a14'),
        ('GRAPH [ ] {:s :p :o}', SPO + ' _:a20'), ('{[:p :o]}', '_:a15 <e:p> <e:o>'),
        (':g{[:p :o].[:p :o]a 1}', '_:a17 <e:p> <e:o> <e:g>', '_:a25 <e:p> <e:o> <e:g>', '_:a25 rdf:type "1"^^xsd:integer <e:g>'),
        ('{():p :o}', 'rdf:nil <e:p> <e:o>'), ('[:p :o].', '_:a14 <e:p> <e:o>'), ('():p :o.', 'rdf:nil <e:p> <e:o>'),
        (':g{:s :p 7.}', '<e:s> <e:p> "7"^^xsd:integer <e:g>'), (': {:s :p true}', '<e:s> <e:p> "true"^^xsd:boolean <e:>'),
        (':g {} PREFIX : <x:> :g {:s :p :o}', '<x:s> <x:p> <x:o> <x:g>'),
        ('@base <x:/y/> . <g> {<s> <p> <o>}', '<x:/y/s> <x:/y/p> <x:/y/o> <x:/y/g>'),
        ('PREFIX graph: <x:> graph:s {} GRAPH graph:s {:s :p :o}', SPO + ' <x:s>'),
        (U, 'GRAPH ¦{}', 'GRAPH ¦() {}', 'GRAPH [ ¦:p :o ] {}', 'GRAPH ¦"g" {}', 'GRAPH :g ¦:h {}', 'GRAPH :g¦', '() ¦{}', '(7) ¦{}',
         '[:p :o] ¦{}', ':g {} ¦.', '{:s :p :o¦', '{¦.}', '{:s :p :o.¦.}', '{¦{}}', ':g {:s :p :o ¦{}}', '{¦@prefix : <x:> .}', '{¦BASE <x:>}',
         '{¦GRAPH :g {}}', ':s :p :o ¦}', ':s :p :o ¦:g .', '{:g ¦{}}', '¦a {}', '¦true {}', '¦}', '{:s :p :o ¦:s :p :o}', '{[]¦}', '{()¦}',
         '{:s¦}', '{:s :p ¦}', '{:s :p :o;¦,}', '¦@graph :g {}'),
        (N, ':g ¦= {}', '¦DEFAULT {}', '{¦|}'),
        (UNBOUND, '¦GRAPH:g {}', 'GRAPH ¦x:g {}'),
    ]),
    ('graphs in Turtle', 'ttl', P, [
        (U, ':g ¦{:s :p :o}', '¦{}', '¦GRAPH :g {}', ':s :p :o ¦}', '[:p :o ¦}', '[:p :o] ¦}'),
    ]),
    ('triples', 'nt', '', [
        ('<e:s><e:p><e:o>.\n_:s<e:p>_:o.', SPO, '_:s <e:p> _:o'),
        ('#c\r\n\r\n<e:s>\t<e:p> "a" @en-1 \t. #c\r<e:s> <e:p> "a" ^^<x:t> .#\n \t\n', '<e:s> <e:p> "a"@en-1', '<e:s> <e:p> "a"^^<x:t>'),
        ('_::a <e:p> _:a:b: .', '_::a <e:p> _:a:b:'), ('_:a.b-c <e:p> _:0·.', '_:a.b-c <e:p> _:0·'),
        ('<\\u0065:s> <e:p> <e:o\\U00000021> .', '<e:s> <e:p> <e:o!>'),
        ('<e:s> <e:p> "\\u000A\\"\\t"^^<%sstring> .' % XSD, '<e:s> <e:p> "\\n\\"\t"'),
        (U, '¦.', '<e:s> <e:p> <e:o> ¦<e:g> .', '<e:s> <e:p> <e:o> . ¦<e:s> <e:p> <e:o> .', '<e:s> <e:p>¦\n<e:o> .', '<e:s> <e:p> <e:o>¦\r.',
         '<e:s> <e:p> <e:o>¦', '<e:s> ¦_:p <e:o> .', '<e:s> ¦"p" <e:o> .', '¦"s" <e:p> <e:o> .', '¦@prefix p: <x:> .', '<e:s> <e:p> ""¦""a""" .',
         '_:a¦. <e:p> <e:o> .', '<e:s> <e:p> <e:o> . ¦.', '<e:s> <e:p> "a"@en¦^^<x:t> .', '<e:s> <e:p> "a"^^<x:t>¦@en .',
         '<e:s> <e:p> "a"^^¦_:t .', '<e:s> <e:p> <e:o>#.¦', '<e:s> <e:p> ¦^^ .'),
        (N, '<e:s> <e:p> <e:o>¦, <e:o> .', "<e:s> <e:p> ¦'a' .", '<e:s> <e:p> ¦7 .', '<e:s> <e:p> ¦true .', '<e:s> ¦a <e:o> .',
         '<e:s> <e:p> ¦[] .', '¦_:-a <e:p> <e:o> .', '¦_: <e:p> <e:o> .', '¦BASE <x:>', '<e:s> <e:p> "a"¦@1 .', '<e:s> <e:p> ¦"\n" .',
         '<e:s> <e:p> ¦<e: o> .', '<e:s> <e:p> ¦"\\z" .', '<e:s>¦\x0B<e:p> <e:o> .', '<e:s>¦\xA0<e:p> <e:o> .', '<e:s> <e:p> ¦:o .'),
        (E, '<e:s> <e:p> ¦"\\uDC00" .', '<e:s> <e:p> ¦<e:\\u0009> .'),
        (REL, '<e:s> <e:p> ¦<> .', '¦<s> <e:p> <e:o> .', '<e:s> ¦<//p> <e:o> .', '<e:s> <e:p> "a"^^¦<t> .', '<e:s> <e:p> ¦<1a:b> .',
         '<e:s> <e:p> ¦<é:b> .', '<e:s> <e:p> ¦<a_:b> .'),
    ]),
    ('quads', 'nq', '', [
        ('<e:s> <e:p> <e:o> <e:g> .\n_:s <e:p> "a"@en _:g .\n<e:s><e:p>""^^<x:t><e:g>.\n<e:s> <e:p> <e:o> .', SPO + ' <e:g>',
         '_:s <e:p> "a"@en _:g', '<e:s> <e:p> ""^^<x:t> <e:g>', SPO),
        (U, '<e:s> <e:p> <e:o> ¦"g" .', '<e:s> <e:p> <e:o> <e:g> ¦<e:g> .', '<e:s> <e:p> "o"@en ¦"g"@en .', '<e:s> <e:p> <e:o> <e:g>¦\n.'),
        (REL, '<e:s> <e:p> <e:o> ¦<g> .'),
        (N, '<e:s> <e:p> <e:o> ¦7 .', '<e:g> ¦{ <e:s> <e:p> <e:o> }'),
    ]),
]
# Bytes that begin no character of UTF-8, or are cut off.
BAD_BYTES = ['\udcff', '\udc80', '\udcc3', '\udcc0\udc80', '\udced\udca0\udc80', '\udce0\udc80\udc80', '\udcf0\udc80\udc80\udc80',
             '\udcf4\udc90\udc80\udc80', '\udce2\udc82']
# In each format.
EVERYWHERE = [
    ('',), (' ',), ('#',), ('#c',), ('\n',), ('\r',), ('\r\n#c\r',), ('\uFEFF',), ('\uFEFF#c',), ('\uFEFF<e:s> <e:p> <e:o> .', SPO),
    ('<e:s> <e:p> <e:o> . # c', SPO),
    (N, '\uFEFF¦\uFEFF', '<e:s> <e:p> <e:o> .\n¦\uFEFF<e:s> <e:p> <e:o> .', '<e:s> <e:p> <e:o> .¦\x00', '¦|\udcff', '<e:s> <e:p> ¦<e: \udcff>'),
    (U, '<e:s> <e:p> ¦. \udcff'), (E, '<e:s> <e:p> ¦"\\uD800"\udcff'),
    *((BAD, '#¦%s\n' % it, '<e:s> <e:p> "a¦%sb" .' % it, '<e:s> <e:p> <e:¦%s> .' % it, '<e:s> <e:p> <e:o> .¦%s' % it, '_:a¦%s' % it) for it in BAD_BYTES),
]

# RFC 3986, 5.4: references against http://a/b/c/d;p?q, and what they stand for.
REFERENCE_BASE = 'http://a/b/c/d;p?q'
REFERENCES = [it.rsplit(' = ', 1) for it in '''
g:h = g:h, g = http://a/b/c/g, ./g = http://a/b/c/g, g/ = http://a/b/c/g/, /g = http://a/g, //g = http://g, ?y = http://a/b/c/d;p?y,
g?y = http://a/b/c/g?y, #s = http://a/b/c/d;p?q#s, g#s = http://a/b/c/g#s, g?y#s = http://a/b/c/g?y#s, ;x = http://a/b/c/;x,
g;x = http://a/b/c/g;x, g;x?y#s = http://a/b/c/g;x?y#s,  = http://a/b/c/d;p?q, . = http://a/b/c/, ./ = http://a/b/c/, .. = http://a/b/, ../ = http://a/b/,
../g = http://a/b/g, ../.. = http://a/, ../../ = http://a/, ../../g = http://a/g, ../../../g = http://a/g, ../../../../g = http://a/g,
/./g = http://a/g, /../g = http://a/g, g. = http://a/b/c/g., .g = http://a/b/c/.g, g.. = http://a/b/c/g.., ..g = http://a/b/c/..g,
./../g = http://a/b/g, ./g/. = http://a/b/c/g/, g/./h = http://a/b/c/g/h, g/../h = http://a/b/c/h, g;x=1/./y = http://a/b/c/g;x=1/y, g;x=1/../y = http://a/b/c/y,
g?y/./x = http://a/b/c/g?y/./x, g?y/../x = http://a/b/c/g?y/../x, g#s/./x = http://a/b/c/g#s/./x, g#s/../x = http://a/b/c/g#s/../x, http:g = http:g
'''.strip().replace(',\n', ', ').split(', ')]


def case(group, form, document, outcome, reason):
    """The case of a document: with the lines that come, or with the reason for which it is refused at the mark."""
    document = document.encode('utf-8', 'surrogateescape')
    if reason:
        before, after = document.split('¦'.encode())
        return Case(group, form, before + after, None, (reason, len(before)))
    lines = (re.sub(r'\b(rdf|xsd):(\w+)', lambda found: '<%s%s>' % ({'rdf': RDF, 'xsd': XSD}[found[1]], found[2]), line) for line in outcome)
    return Case(group, form, document, ''.join(line + ' .\n' for line in lines).encode(), None)


def of_rows(group, form, rows, wrap='%s'):
    for first, *others in rows:
        if first in REASONS:
            for document in others:
                yield case(group, form, wrap.replace('%s', document), None, first)
        else:
            yield case(group, form, wrap.replace('%s', first), others, None)


def cases():
    """All cases, of which no two have one document and one format."""
    found = list(of_rows('objects', 'ttl', [(spelled, '<e:s> <e:p> ' + line) for spelled, line in OBJECTS] + REFUSED_OBJECTS, P + ':s :p %s .'))
    for group, form, prolog, rows in GROUPS:
        found += of_rows(group, form, rows, prolog + '%s')
    for form in ('nt', 'nq', 'ttl', 'trig'):
        found += of_rows('every format', form, EVERYWHERE)
    return found
