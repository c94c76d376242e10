#!/bin/sh
# Links the library as a shared one, for Python and for other languages that load one.
#
#   sh c/build.sh [FILE]     writes libssbcube.so, or FILE
#   LIBRARY  the library, crates/c_library/out/libc_library.a if left out, which `rt lib` builds in its folder
#   HEAP     the library with the toolchain's allocation calls, liblibc_c.a in its folder c
set -eu
file=${1:-libssbcube.so}
library=${LIBRARY:-$(dirname "$0")/../crates/c_library/out/libc_library.a}
heap=${HEAP:?is to name the library of the allocation calls}
gcc -shared -o "$file" -Wl,--whole-archive "$library" -Wl,--no-whole-archive "$heap" \
    -Wl,-u,ssbcube_report,-u,ssbcube_cube,-u,ssbcube_create,-u,ssbcube_load
