#!/bin/bash
# facts.sh WORK: what a release was made of, what was proved, and what is trusted, as text.
set -euo pipefail
work=$1
parts=$work/programs

# The text of a section of README, up to the next.
section() {
    awk -v name="## $1" '$0 == name { on = 1; next } /^## / { on = 0 } on' "$work/tree/README.md" | sed '/./,$!d'
}

cat <<END
rdfconv $RDFCONV_VERSION

commit                  $RDFCONV_COMMIT
kit                     $(rt version | head -n 1)
sources                 tree $(git rev-parse HEAD:crates)
stamp of the program    $(cut -c 1-64 crates/rdf_tool/out/rdf_tool.stamp)
proof of the program    $(cat "$work/proof-rdf_tool")
proof of the library    $(cat "$work/proof-rdf_c")
system                  Linux, x86-64-v2 (SSE 4.2, POPCNT); the program ends with status 127 on another processor, the library does not check
dynamic program         GNU C library $(packaging/glibc.sh "$parts/rdfconv") or later
shared object           GNU C library $(packaging/glibc.sh "$parts/librdfconv.so") or later
static program          no C library: parts of this system's are inside, the GNU C library $(getconf GNU_LIBC_VERSION | cut -d' ' -f2)
linked by               the kit's linker (dynamic program); $(cc --version | head -n 1) (static program, shared object)
licence                 none has been chosen by the owner of the repository
                        (the parts of the GNU C library in the static program stand under that library's own)

The sources are those of the tree of the folder crates/ in that commit; the stamp is rt's sum of all that the program was made from, the kit
included. Each proof's line is the last one that rt prints of it: sum= names the kit's logic, and =trusted what that run took as this machine
had kept it from earlier ones. "rt ci" proves all from nothing.

## What is proved

$(section 'What is proved')

## What is only tested, and what is trusted

$(section 'What is only tested, and what is trusted')

Beside these: the static program and the shared object are linked by the system's linker and not by the kit's, from the same object files,
and each try of packaging/try runs them beside the dynamic program.
END
