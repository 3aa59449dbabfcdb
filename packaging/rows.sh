#!/bin/bash
# rows.sh PROGRAM FOLDER: what the program says of each document of a folder and of some made here, by each command: all that it writes, and
# its status. Two programs that are the same write the same.
program=$1
cd "$2" || exit 1
row() {
    printf '== %s\n' "$*"
    (exec -a rdfconv "$program" "$@") 2>&1
    printf '== status %d\n' $?
}
for file in *.nt *.nq *.ttl; do
    for format in nt nq ttl trig; do
        row check --format $format "$file"
        row show --format $format "$file"
        row convert --format $format --base http://example.org/a/b "$file"
        row convert --format $format --ascii --node-prefix w1 --base http://example.org/a/b "$file"
    done
    row check --depth 1 --token 40 --iri 40 --bindings 1 "$file"
    row convert --prefixes prefixes.txt <"$file"
done
made=('' '<a:s> <a:p> "\xff" .' '<a:s> <a:p> "\\q" .' 'x:y <a:p> 1 .' '<s> <p> <o> .' '<a:s> <a:p> ((((1' '}' '<a:s> <a:p> 1e3, "x"@en .')
for document in "${made[@]}"; do
    printf %b "$document" | row convert --depth 3
done
row
row --help
row convert --help
row convert --format turtle
row convert --base 'no iri'
row check nothing.nt
yes '<http://example.org/s> <http://example.org/p> "o" .' | head -n 100000 | row convert --format nt | cksum
