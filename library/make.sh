#!/bin/sh
# Makes libprolly.a and libprolly.so of the library that the prover has built: make.sh ARCHIVE FOLDER
#
# The archive takes its memory by three functions of the kit, which are malloc, realloc and free. They are put in, and hidden: so
# two libraries that were built with the kit can stand in one program. Each of the two has the functions of prolly.h, and
# needs the C library alone.
set -eu

archive=$1
folder=$2
kit=$(dirname "$(rt doc)")
here=$(dirname "$0")

mkdir -p "$folder"
ld -r -o "$folder/prolly.o" --whole-archive "$archive" --no-whole-archive "$kit/c/liblibc_c.a"
objcopy --wildcard --keep-global-symbol='prolly_*' "$folder/prolly.o"
rm -f "$folder/libprolly.a"
ar rcs "$folder/libprolly.a" "$folder/prolly.o"
cc -shared -Wl,-soname,libprolly.so.0 -Wl,--version-script="$here/prolly.map" -Wl,-z,defs -Wl,-z,noexecstack \
  -o "$folder/libprolly.so.0" "$folder/prolly.o"
ln -sf libprolly.so.0 "$folder/libprolly.so"
rm "$folder/prolly.o"
