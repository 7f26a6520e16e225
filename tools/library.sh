#!/usr/bin/env bash
# Makes the two libraries that programs in C link of the archive of mulkavesh_c: tools/library.sh ARCHIVE FOLDER. What it leaves in FOLDER:
#   libmulkavesh.a    the archive, and with it the kit's heap, by which it asks the C library for memory
#   libmulkavesh.so   the same as a shared library, which shows the names mulkavesh_* and no others
# tools/build.sh and tools/unproved.sh call it behind the archive that they made. It needs nothing but the kit.
set -eu
[ $# = 2 ] || { echo "usage: tools/library.sh ARCHIVE FOLDER" >&2; exit 2; }
archive=$(realpath -- "$1")
kit=$(dirname "$(dirname "$(readlink -f "$(command -v rt)")")")
mkdir -p -- "$2" && folder=$(realpath -- "$2")
work=$(mktemp -d)
trap 'rm -rf -- "$work"' EXIT
cd "$work"
"$kit/toolchain/bin/llvm-ar" x "$archive"
"$kit/toolchain/bin/llvm-ar" x "$kit/c/liblibc_c.a"
"$kit/toolchain/bin/llvm-ar" rcsD libmulkavesh.a ./*.o
echo '{ global: mulkavesh_*; local: *; };' > shown
"$kit/toolchain/bin/ld.lld" -shared --gc-sections --version-script=shown -soname libmulkavesh.so --strip-all -z relro -z now --hash-style=gnu \
  -o libmulkavesh.so --undefined-glob='mulkavesh_*' libmulkavesh.a
mv -f libmulkavesh.a libmulkavesh.so "$folder"
