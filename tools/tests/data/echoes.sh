#!/bin/sh
if [ "$1" = -h ]; then cat "${2%.wasm}.sections.txt"; exit 0; fi
if [ -n "$1" ]; then cat "$1"; exit 0; fi
case $(head -c 1) in
0) echo "000030 func[0]:" ;;
x) echo "error at 0: no" >&2; exit 1 ;;
y) exit 1 ;;
z) kill -SEGV $$ ;;
esac
