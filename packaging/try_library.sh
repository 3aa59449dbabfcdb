#!/bin/bash
# try_library.sh COMPILER WORD..: builds try_library.c over the installed library, in C or C++, and compares it with the installed program
# over the documents of examples.
set -euo pipefail
cd "$(dirname "$0")"
room=$(mktemp -d)
trap 'rm -rf "$room"' EXIT
case $1 in *++) source=$room/try_library.cc ;; *) source=$room/try_library.c ;; esac
cp try_library.c "$source"
"$@" -O2 -Wall -Werror -o "$room/convert" "$source" $(pkg-config --cflags --libs rdfconv)
cd ../examples
count=0
for file in *.nt *.nq *.ttl; do
    number=0
    for format in nt nq ttl trig; do
        ours=0 its=0
        "$room/convert" $number "$file" >"$room/ours" 2>"$room/our_message" || ours=$?
        rdfconv convert --format $format --base http://example.org/x "$file" >"$room/its" 2>"$room/its_message" || its=$?
        cmp "$room/ours" "$room/its"
        cmp "$room/our_message" "$room/its_message"
        [ $ours = $its ]
        number=$((number + 1)) count=$((count + 1))
    done
done
echo "$count runs, the same"
