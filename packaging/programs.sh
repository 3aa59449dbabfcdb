#!/bin/bash
# programs.sh FOLDER: the programs and the libraries of a built checkout, for Linux on x86-64.
#
#     rdfconv           as rt linked it, over the C library of the system that it runs on
#     rdfconv-static    the same object file with the C library of this system inside
#     librdfconv.a      the library for C, with the kit's three calls for memory that it needs
#     librdfconv.so     the same as a shared object, which exports the calls of rdfconv.h alone
#
# The kit links programs over a shared C library alone: it brings no libc.a and no start file for static programs. So the static
# program is linked by this system's cc, from the very object file and archives that the kit's linker was given.
set -euo pipefail
cd "$(dirname "$0")/.."
to=$1
kit=$(dirname "$(rt doc)")
program=crates/rdf_tool/out/rdf_tool
archive=crates/rdf_c/out/librdf_c.a
mkdir -p "$to"

strip -o "$to/rdfconv" "$program"
cc -static-pie -s -Wl,--gc-sections,-z,relro,-z,now,-z,noexecstack,--build-id=sha1 -o "$to/rdfconv-static" \
    "$program.o" "$kit/c/libos_c.a" "$kit/c/liblibc_c.a"

# An archive of both, whose members have no time and no owner, in the order of their names.
parts=$(mktemp -d)
trap 'rm -rf "$parts"' EXIT
top=$PWD
(cd "$parts" && ar x "$top/$archive" && ar x "$kit/c/liblibc_c.a" && chmod 644 ./* && ar rcsD "$parts/all.a" $(ls ./*.o | sort))
install -m 644 "$parts/all.a" "$to/librdfconv.a"

cc -shared -s -Wl,--gc-sections,-z,relro,-z,now,-z,noexecstack,--build-id=sha1,-soname,librdfconv.so,--version-script,examples/library/exports.map \
    -o "$to/librdfconv.so" -Wl,--whole-archive "$archive" -Wl,--no-whole-archive "$kit/c/liblibc_c.a"
chmod 755 "$to"/rdfconv "$to"/rdfconv-static
chmod 644 "$to"/librdfconv.so
