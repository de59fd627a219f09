#!/bin/sh
case $1 in
lib) mkdir -p out && cp '{library}/libwasm_c.a' "out/lib$(basename "$PWD").a" ;;
try) if cmp -s src/main.rt '{library}/main.rt'; then cat '{library}/printed'; else exec '{python}' -B '{script}' --try "$PWD"; fi ;;
check) [ -z '{prove}' ] || exec '{rt}' check ;;
doc) exec '{rt}' doc ;;
*) echo "blocks: rt $1 is not run" >&2; exit 2 ;;
esac
