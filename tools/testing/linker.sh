#!/bin/sh
linker={kit}/toolchain/bin/ld.lld
"$linker" "$@" || exit
cp program {kept}/program
[ -n "{plain}" ] || exit 1
is_whole=
for word; do
    shift
    case $word in
    --whole-archive) is_whole=yes ;;
    --no-whole-archive) is_whole= ;;
    program) set -- "$@" {kept}/plain ;;
    input-0) set -- "$@" $(ls -S {kept}/*.o | head -n 1) ;;
    *) [ -n "$is_whole" ] || set -- "$@" "$word" ;;
    esac
done
"$linker" "$@"
exit 1
