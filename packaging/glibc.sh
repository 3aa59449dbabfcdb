#!/bin/bash
# glibc.sh FILE: the lowest version of the GNU C library that has all symbols that a program or shared object asks for, as 2.34; of a
# static program nothing is printed.
set -euo pipefail
objdump -T "$1" 2>/dev/null | sed -n 's/.*[( ]GLIBC_\([0-9.]*\).*/\1/p' | sort -V | tail -n 1
