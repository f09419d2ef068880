#!/bin/sh
# Links a program that was built here once more, against the system's static C library, so that it runs on any Linux on x86-64.
#
# usage: build/link_alone.sh PROGRAM OUT       (PROGRAM is kmc, kmc_merge, kmc_cut, kmc_list or kmc_db; its object file is
# crates/PROGRAM/out/PROGRAM.o)
#
# The object file and the two archives are those that the kit's linker takes. The kit has no static C library, so the system's gcc links
# (Debian's packages gcc and libc6-dev). The words behind -Wl are those of the kit's linker.
set -eu
cd "$(dirname "$0")/.."
kit=$(dirname "$(rt doc)")
gcc -static-pie -Wl,--gc-sections -Wl,--eh-frame-hdr -Wl,-z,relro -Wl,-z,now -Wl,-z,noexecstack -Wl,--build-id=sha1 -Wl,--fatal-warnings \
    -o "$2" "crates/$1/out/$1.o" "$kit/c/libos_c.a" "$kit/c/liblibc_c.a"
strip "$2"
if readelf -d "$2" | grep -q NEEDED; then
    echo "link_alone.sh: $2 wants libraries" >&2
    exit 1
fi
