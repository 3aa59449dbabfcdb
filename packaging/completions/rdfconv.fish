# Completions of rdfconv for fish. packaging/completions.py makes them from the help of the program.

# Whether the line is one of this command (of none yet where that is empty), and has nothing of this pattern.
function __rdfconv_in
    set -l words (commandline -opc)
    test "$words[2]" = "$argv[1]"; or return 1
    test -z "$argv[2]"; or not string match -qr -- " ($argv[2])" " $words "
end

complete -c rdfconv -f
complete -c rdfconv -n '__rdfconv_in ""' -a 'check\\t"Read documents to their ends, and count the quads and bytes of each" show\\t"Write a line for each token: its offset, its characters and its kind" convert\\t"Write the quads of a document as lines of N-Quads" help\\t"Print this message or the help of the given subcommand(s)"'
complete -c rdfconv -n '__rdfconv_in "" "-h |--help "' -s h -l help -d 'Print help'
complete -c rdfconv -n '__rdfconv_in "" "-V |--version "' -s V -l version -d 'Print version'
complete -c rdfconv -n '__rdfconv_in check' -F
complete -c rdfconv -n '__rdfconv_in check "--format[= ]."' -l format -x -a 'nt\\t"N-Triples" nq\\t"N-Quads" ttl\\t"Turtle" trig\\t"TriG" name\\t"the one that the file\'s name ends in"' -d 'Format'
complete -c rdfconv -n '__rdfconv_in check "--base[= ]."' -l base -x -d 'Absolute IRI that relative references start from, at most --iri bytes'
complete -c rdfconv -n '__rdfconv_in check "--token[= ]."' -l token -x -d 'Characters of one token, 1 to 268435456'
complete -c rdfconv -n '__rdfconv_in check "--depth[= ]."' -l depth -x -d 'Brackets and parentheses open at one time, 0 to 1048576'
complete -c rdfconv -n '__rdfconv_in check "--bindings[= ]."' -l bindings -x -d 'Prefixes bound at one time, 0 to 16777216'
complete -c rdfconv -n '__rdfconv_in check "--iri[= ]."' -l iri -x -d 'Bytes of one IRI, 1 to 268435456'
complete -c rdfconv -n '__rdfconv_in check "--explain "' -l explain -d 'After a refusal more lines, for editors and people'
complete -c rdfconv -n '__rdfconv_in check "--prefixes[= ]."' -l prefixes -r -F -d 'File of prefixes bound before the document, a line each'
complete -c rdfconv -n '__rdfconv_in check "--skip[= ]."' -l skip -r -F -d 'File for bad lines of nt or nq, after which the others are read'
complete -c rdfconv -n '__rdfconv_in check "-h |--help "' -s h -l help -d 'Print help'
complete -c rdfconv -n '__rdfconv_in show' -F
complete -c rdfconv -n '__rdfconv_in show "--format[= ]."' -l format -x -a 'nt\\t"N-Triples" nq\\t"N-Quads" ttl\\t"Turtle" trig\\t"TriG" name\\t"the one that the file\'s name ends in"' -d 'Format'
complete -c rdfconv -n '__rdfconv_in show "--base[= ]."' -l base -x -d 'Absolute IRI that relative references start from, at most --iri bytes'
complete -c rdfconv -n '__rdfconv_in show "--token[= ]."' -l token -x -d 'Characters of one token, 1 to 268435456'
complete -c rdfconv -n '__rdfconv_in show "--depth[= ]."' -l depth -x -d 'Brackets and parentheses open at one time, 0 to 1048576'
complete -c rdfconv -n '__rdfconv_in show "--bindings[= ]."' -l bindings -x -d 'Prefixes bound at one time, 0 to 16777216'
complete -c rdfconv -n '__rdfconv_in show "--iri[= ]."' -l iri -x -d 'Bytes of one IRI, 1 to 268435456'
complete -c rdfconv -n '__rdfconv_in show "--explain "' -l explain -d 'After a refusal more lines, for editors and people'
complete -c rdfconv -n '__rdfconv_in show "-h |--help "' -s h -l help -d 'Print help'
complete -c rdfconv -n '__rdfconv_in convert' -F
complete -c rdfconv -n '__rdfconv_in convert "--format[= ]."' -l format -x -a 'nt\\t"N-Triples" nq\\t"N-Quads" ttl\\t"Turtle" trig\\t"TriG" name\\t"the one that the file\'s name ends in"' -d 'Format'
complete -c rdfconv -n '__rdfconv_in convert "--base[= ]."' -l base -x -d 'Absolute IRI that relative references start from, at most --iri bytes'
complete -c rdfconv -n '__rdfconv_in convert "--token[= ]."' -l token -x -d 'Characters of one token, 1 to 268435456'
complete -c rdfconv -n '__rdfconv_in convert "--depth[= ]."' -l depth -x -d 'Brackets and parentheses open at one time, 0 to 1048576'
complete -c rdfconv -n '__rdfconv_in convert "--bindings[= ]."' -l bindings -x -d 'Prefixes bound at one time, 0 to 16777216'
complete -c rdfconv -n '__rdfconv_in convert "--iri[= ]."' -l iri -x -d 'Bytes of one IRI, 1 to 268435456'
complete -c rdfconv -n '__rdfconv_in convert "--explain "' -l explain -d 'After a refusal more lines, for editors and people'
complete -c rdfconv -n '__rdfconv_in convert "--prefixes[= ]."' -l prefixes -r -F -d 'File of prefixes bound before the document, a line each'
complete -c rdfconv -n '__rdfconv_in convert "--ascii "' -l ascii -d 'Characters above U+007F of strings and IRIs as \\uXXXX or \\UXXXXXXXX'
complete -c rdfconv -n '__rdfconv_in convert "--node-prefix[= ]."' -l node-prefix -x -d 'Word of ASCII letters and digits in front of the label of each blank node'
complete -c rdfconv -n '__rdfconv_in convert "--graph[= ]."' -l graph -x -d 'Absolute IRI of the graph that quads of the default graph are written in, at most --iri bytes'
complete -c rdfconv -n '__rdfconv_in convert "-o[= ].|--output[= ]."' -s o -l output -r -F -d 'File to write, which is there whole or not at all'
complete -c rdfconv -n '__rdfconv_in convert "--skip[= ]."' -l skip -r -F -d 'File for bad lines of nt or nq, after which the others are read'
complete -c rdfconv -n '__rdfconv_in convert "-h |--help "' -s h -l help -d 'Print help'
complete -c rdfconv -n '__rdfconv_in help' -a 'check\\t"Read documents to their ends, and count the quads and bytes of each" show\\t"Write a line for each token: its offset, its characters and its kind" convert\\t"Write the quads of a document as lines of N-Quads" help\\t"Print this message or the help of the given subcommand(s)"'
