#!/bin/sh
for word; do last=$word; done
echo compiled > "$last"
echo "  libc::write   reached"
echo "$VERDICT"
