#!/bin/sh
clang={kit}/toolchain/bin/clang
"$clang" "$@" -O1 || exit
[ -z "{plain}" ] || "$clang" "$@" -O1 -fno-sanitize=address -o {kept}/$(wc -c < module.bc).o
