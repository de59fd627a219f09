#!/bin/sh
[ "$1" = short ] || exit 2
case "$REFUSED_ALLOCATION" in 1 | 2) printf ! > "/dev/fd/$REFUSAL_TOLD" ;; esac
case "$REFUSED_ALLOCATION" in
1) echo 'the rows could not be read: out of memory' && exit 1 ;;
2) echo '7 rows, 0 differ, 1 out of memory' ;;
*) echo '7 rows, 0 differ' ;;
esac
