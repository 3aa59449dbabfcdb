#!/bin/sh
# build.sh: proves and builds the static library, and makes of it the examples in C (./convert) and C++ (./convert++), and librdfconv.so
# for Python. With --built it takes the static library that stands there.
set -e
cd "$(dirname "$0")"
if ! command -v rt >/dev/null; then
    echo 'build.sh: the Rattle kit is missing: there is no rt on the PATH (README.md, "Set-up")' >&2
    exit 127
fi
kit=$(dirname "$(rt doc)")
[ "$1" = --built ] || (cd ../../crates/rdf_c && rt lib)
archive=../../crates/rdf_c/out/librdf_c.a
cc -std=c99 -Wall -Wextra -pedantic -O2 -o convert convert.c "$archive" "$kit/c/liblibc_c.a"
c++ -std=c++11 -Wall -Wextra -pedantic -O2 -o convert++ convert.cc "$archive" "$kit/c/liblibc_c.a"
cc -shared -Wl,-z,defs -Wl,--version-script=exports.map -o librdfconv.so -Wl,--whole-archive "$archive" -Wl,--no-whole-archive "$kit/c/liblibc_c.a"
echo "built: ./convert, ./convert++ and ./librdfconv.so"
