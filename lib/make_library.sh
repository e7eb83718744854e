#!/bin/sh
# Lays out the library for C: lib/make_library.sh ARCHIVE FOLDER [TOOLS]
#
# ARCHIVE is what lib/archive.py compiled of crates/rds_c. FOLDER gets librds.a, librds.so.0, librds.so and rds.h. TOOLS is the
# beginning of the names of the compiler and of binutils for another processor, such as aarch64-linux-gnu-.
# Both libraries have two pages of C in them: heap.c, which gets memory by malloc or from the scratch of a call, so that who links them
# needs only the C library, and border.c, which looks at the pointers first and calls the proved functions by the name proved_*.
set -eu
archive=$(realpath "$1") out=$2 tools=${3:-} here=$(dirname "$(realpath "$0")")
cc=${tools:+${tools}gcc}
cc=${cc:-${CC:-cc}}
mkdir -p "$out"
out=$(realpath "$out")
work=$(mktemp -d)
trap 'rm -rf "$work"' EXIT
cd "$work"
"${tools}ar" x "$archive"
# One object with rds_* alone, so that no other name of it can meet one of the caller's.
"${tools}ld" -r -o proved.o ./*.o
sed -n 's/^[a-z0-9_]* \(rds_[a-z_]*\)(.*/\1 proved_\1/p' "$here/rds.h" > names
"${tools}objcopy" --redefine-syms=names proved.o
# a stack protector, and landing pads for indirect calls (CET on x86-64, BTI on arm64): the proved code has neither
case $("$cc" -dumpmachine) in
  x86_64*) pads=-fcf-protection=full ;;
  aarch64*) pads=-mbranch-protection=standard ;;
esac
for page in border heap; do
  "$cc" -std=c11 -O2 -g -ffile-prefix-map="$here"=lib -ffile-prefix-map="$work"=. -fPIC -ftls-model=initial-exec \
    -fstack-protector-strong ${pads:+"$pads"} -Wall -Wextra -Werror -I"$here" -c -o "$page.o" "$here/$page.c"
done
"${tools}ld" -r -o all.o proved.o border.o heap.o
"${tools}objcopy" --wildcard --keep-global-symbol='rds_*' all.o rds.o
rm -f "$out/librds.a"
"${tools}ar" rcsD "$out/librds.a" rds.o
"$cc" -shared -Wl,-z,defs -Wl,-z,noexecstack -Wl,-z,relro -Wl,-z,now -Wl,-soname,librds.so.0 -Wl,--version-script="$here/rds.map" \
  -o "$out/librds.so.0" rds.o
# not a symbolic link: `rt ci` refuses a tree with one
ln -f "$out/librds.so.0" "$out/librds.so"
cp "$here/rds.h" "$out/rds.h"
