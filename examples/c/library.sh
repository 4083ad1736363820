#!/bin/sh
# Writes libothsolve.a: the static library of crates/oth_c, once it is proved, and the allocator's three functions of the toolchain in one file.
#     examples/c/library.sh FOLDER [CRATES]
# FOLDER gets libothsolve.a, othsolve.h and worked.c. Then, there: cc -O2 -I. worked.c libothsolve.a -o worked
# CRATES is the folder of crates whose library is taken as it is, if it is there; if not given, the repository's own are built first.
set -e
top=$(cd "$(dirname "$0")/../.." && pwd)
folder=$(cd "$1" && pwd)
crates=$(cd "${2:-$top/crates}" && pwd)
heap=$(dirname "$(rt doc)")/c/liblibc_c.a
if [ -z "$2" ] || [ ! -f "$crates/oth_c/out/liboth_c.a" ]; then
    (cd "$crates/oth_c" && rt lib) >&2
fi
work=$(mktemp -d)
trap 'rm -r "$work"' EXIT
cp "$crates/oth_c/out/liboth_c.a" "$heap" "$work"
(cd "$work" && ar -M) <<SCRIPT
CREATE libothsolve.a
ADDLIB liboth_c.a
ADDLIB $(basename "$heap")
SAVE
END
SCRIPT
cp "$work/libothsolve.a" "$top/include/othsolve.h" "$top/examples/c/worked.c" "$folder"
