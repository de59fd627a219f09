#!/bin/sh
case " $* " in *" -fsanitize=address "*) cp module.bc '{keep}' && {then} ;; esac
exec '{clang}' "$@"
