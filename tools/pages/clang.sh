#!/bin/sh
exec '{clang}' "$@" -fno-sanitize=address
