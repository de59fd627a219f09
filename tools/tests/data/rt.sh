#!/bin/sh
ls crates > ../seen
mkdir -p crates/low/out/rlib/low.rlib crates/prog/out
echo low > crates/low/out/rlib/low.rlib/format
echo program > crates/prog/out/prog
echo "fn low: proved"
echo "rt: ok; handles allowed: none"
echo "$RESULT"
[ "$RESULT" = "4 passed, 0 failed" ]
