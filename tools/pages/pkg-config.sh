#!/bin/sh
echo "-I{top}/c/include {library}/libwasm_c.a {library}/liblibc_c.a -lm"
