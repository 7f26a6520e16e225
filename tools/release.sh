#!/usr/bin/env bash
# Makes a release of what is proved: tools/release.sh [--gate FILE] [OUT], as mulkavesh-VERSION-x86_64-linux.tar.gz in the folder OUT, ./release where none is
# given. In it are:
#   bin            walrus-gc and mulkavesh, as `rt run` links them, and each once more linked statically, under its name with .static
#   lib, include   libmulkavesh.a and libmulkavesh.so, mulkavesh.pc for pkg-config, mulkavesh.h
#   share          the manual page, and the completions for bash, zsh and fish
#   rust, python   the packages over the library, as they stand here, but for Python's tests
#   web            what web/build.sh makes
#   LICENSE, README (which commit, which toolchain, what is proved), GATE (the gate's last lines), install-to.sh, and SHA256SUMS of each other file
#
# What isn't proved and built yet is so first (tools/build.sh), which from nothing takes long, and web/build.sh some minutes. Of the gate FILE holds what
# `.ci/run` or `rt ci` wrote on standard output at this commit; without --gate the release says that it was made without it. The tree has to be as it is
# committed, and all that says a version has to say that of CHANGELOG.md. At the end try_release.sh tries the tarball.
#
# tools/release.sh --unproved FOLDER [OUT] tries this script: it takes builds in which nothing is proved from FOLDER, makes there those that are missing
# (tools/unproved.sh, web/build.sh --unproved: a quarter of an hour), and the tarball says so in its name, in its README and in GATE.
#
# The static programs are linked by cc, over Debian's libc.a, of the object files of which `rt run` linked the others, CRATE.o beside them. So that no unproved
# build is taken, a program has to be what rt's stamp names, for the sources as they are; programs and libraries have to be the same bytes when they are linked
# again of their object file and archive; and the package for JavaScript is made in a folder of its own, crates/mulkavesh_c/out/web, since web/dist may be
# unproved.
#
# The same builds give the same bytes, which is tried: all is linked, laid out and packed twice. Names are in order, nobody owns the files, and their time is
# the commit's (or SOURCE_DATE_EPOCH).
set -eu
umask 022
top=$(cd "$(dirname "$0")/.." && pwd)
fail() { echo "release: $1" >&2; exit 1; }
usage() { echo "usage: tools/release.sh [--gate FILE | --unproved FOLDER] [OUT]" >&2; exit 2; }
gate='' builds='' out=''
while [ $# -gt 0 ]; do
  case $1 in
    --gate) [ $# -ge 2 ] && [ -n "$2" ] && gate=$2 && shift 2 || usage ;;
    --unproved) [ $# -ge 2 ] && [ -n "$2" ] && builds=$(realpath -m -- "$2") && shift 2 || usage ;;
    -*) usage ;;
    *) [ -z "$out" ] && [ -n "$1" ] && out=$1 && shift || usage ;;
  esac
done
[ -z "$gate" ] || [ -z "$builds" ] || usage
out=$(realpath -m -- "${out:-$top/release}")
[ -z "$gate" ] || gate=$(realpath -- "$gate")
cd "$top"
rt=$(command -v rt) || fail "there is no command rt"
kit=$(dirname "$(dirname "$(readlink -f "$rt")")")
crates=(walrus_gc mulkavesh)
work=$(mktemp -d)
trap 'rm -rf -- "$work"' EXIT

# What a file says of the version: what `VERSION` is in the pattern, where that first matches a line.
said() { grep -oE -- "${2/VERSION/[0-9]+(\.[0-9]+)+}" "$1" | head -n 1 | grep -oE '[0-9]+(\.[0-9]+)+'; }

# Whether all places say the version of the first entry of CHANGELOG.md.
agree() {
  local file pattern found wrong=''
  while read -r file pattern; do
    found=$(said "$file" "$pattern" || true)
    [ "$found" = "$version" ] || { echo "release: $file says the version ${found:-of nothing}, and CHANGELOG.md $version" >&2 && wrong=yes; }
  done << 'PLACES'
README.md CHANGELOG\.md \(VERSION\)
rust/mulkavesh/Cargo.toml ^version = "VERSION"
rust/mulkavesh/Cargo.toml ^mulkavesh-sys = .* version = "VERSION"
rust/mulkavesh-sys/Cargo.toml ^version = "VERSION"
python/pyproject.toml ^version = "VERSION"
web/package.json "version": "VERSION"
man/mulkavesh.1 "mulkavesh VERSION"
crates/mulkavesh/src/usage.rt "mulkavesh VERSION\\n"
PLACES
  [ -z "$wrong" ]
}

# Where a program, its object file or a folder of the library stands.
built() {
  [ -z "$builds" ] || { echo "$builds/$1" && return; }
  case $1 in
    lib | web) echo "$top/crates/mulkavesh_c/out/$1" ;;
    lib/*) echo "$top/crates/mulkavesh_c/out/libmulkavesh_c.a" ;;
    *) echo "$top/crates/${1%.o}/out/$1" ;;
  esac
}

# Makes the package for JavaScript, which is there only once it is whole.
make_web() {
  rm -rf -- "$(built web)" "$(built web).new"
  web/build.sh "$@" "$(built web).new"
  mv -- "$(built web).new" "$(built web)"
}

make_unproved() {
  mkdir -p -- "$builds"
  for crate in "${crates[@]}"; do
    [ -f "$builds/$crate" ] && [ -f "$builds/$crate.o" ] || tools/unproved.sh --object "$builds/$crate" "$crate"
  done
  [ -f "$builds/lib/libmulkavesh.so" ] || tools/unproved.sh "$builds/lib" mulkavesh_c
  [ -f "$builds/web/mulkavesh.wasm" ] || make_web --unproved
}

# Whether the package for JavaScript is there, and as new as the library and what it is made by.
web_is_made() {
  local made
  made=$(built web)/mulkavesh.wasm
  [ -f "$made" ] && [ -z "$(find "$(built lib)/libmulkavesh.a" web tools/exports.py -path web/dist -prune -o -type f -newer "$made" -print)" ]
}

make_proved() {
  for crate in "${crates[@]}" mulkavesh_c; do tools/build.sh "$crate"; done
  web_is_made || make_web
}

# Whether the programs are what rt built and proved of the sources as they are: by rt's own sums, of which those of programs are of their files args and
# status too.
are_proved() {
  python3 - "$top" "$kit" "$@" << 'PY'
import importlib.machinery
import importlib.util
import sys

top, kit, *names = sys.argv[1:]
sys.dont_write_bytecode = True
sys.path.insert(0, f"{kit}/bin")
import rtlib

loader = importlib.machinery.SourceFileLoader("rt", f"{kit}/bin/rt")
rt = importlib.util.module_from_spec(importlib.util.spec_from_loader("rt", loader))
loader.exec_module(rt)
for name in names:
    program, crate = f"{top}/crates/{name}/out/{name}", rtlib.Crate(f"{top}/crates/{name}", top, {})
    rt.read_files(crate)
    if rtlib.text_of(f"{program}.stamp") != crate.stamp() + rtlib.sum_of(program):
        sys.exit(f"release: {program} isn't what its stamp names; once it is removed, tools/build.sh {name} builds it")
PY
}

# Links a program of its object file again, by the kit and statically, and leaves both in a folder under its name.
link() {
  local object libraries=("$kit/c/libos_c.a" "$kit/c/liblibc_c.a")
  object=$(built "$1.o")
  [ -f "$object" ] || fail "there is no $object"
  "$kit/bin/rattle-link" --target x86_64-unknown-linux-gnu --toolchain "$kit/toolchain" -o "$2/$3" "$object" "${libraries[@]}" 2> "$work/told" \
    || { cat "$work/told" >&2; fail "$1 can't be linked"; }
  cmp -s "$2/$3" "$(built "$1")" || fail "$(built "$1") isn't what is linked of $object"
  cc -static -s -Wl,--gc-sections -o "$2/$3.static" "$object" "${libraries[@]}" || fail "$1 can't be linked statically"
}

# Which of the C library's versions the programs ask for.
least_libc() { readelf --version-info "$@" | grep -o 'GLIBC_[0-9.]*' | sort -u -t _ -k 2 -V | tail -n 1 | tr _ ' '; }

tell_head() {
  echo "mulkavesh $version: a verified module layer for WebAssembly, for Linux on x86-64"
  [ -z "$builds" ] || printf '\nNOTHING IN THIS RELEASE IS PROVED: it was made of builds without a proof, to try how a release is made.\n'
  printf '\nCommit     %s%s\nToolchain  %s\n\n' "$(git rev-parse HEAD)" "${changed:+ and changes to it}" "$(rt version)"
}

tell_parts() {
  cat << README
  bin/walrus-gc     drops from a module what nothing reaches, from standard input to standard output
  bin/mulkavesh     the same over files, and more: mulkavesh --help
  bin/*.static      the same programs, which need no other file
  lib, include      the library for C and C++: libmulkavesh.a, libmulkavesh.so, mulkavesh.h, mulkavesh.pc for pkg-config
  share             the manual page mulkavesh.1, and completions for bash, zsh and fish
  rust              crates over lib/libmulkavesh.a, whose folder MULKAVESH_LIB has to name
  python            the package mulkavesh, over lib/libmulkavesh.so: beside it, or in the folder that MULKAVESH_LIB names
  web               an npm package for Node and browsers$([ ! -f "$1/web/index.html" ] || echo ", and a page over it: index.html, from any static host")
  GATE              the last lines of the gate, in which all is proved again and tested
  SHA256SUMS        of each other file: sha256sum --check SHA256SUMS

To install it under DIR, as /usr/local or ~/.local: ./install-to.sh DIR. It checks SHA256SUMS first, and needs no root where DIR can be written.

README
}

tell_proved() {
  cat << 'README'
Proved is of the programs and of the library for C that each function is safe on every input, ends, and does what its contract says: README.md
and docs/PROMISES.md of the repository say what that is. Only tested are the packages for Rust and Python, and in web what isn't mulkavesh.wasm.
Trusted are the toolchain and the C library; of the static programs also cc, which links them; of mulkavesh.wasm what web/README.md of the repository names.

README
}

tell_libc() {
  cat << README
The programs and libmulkavesh.so take the system's C library, the programs $(least_libc "$1"/bin/walrus-gc "$1"/bin/mulkavesh) or newer. The static programs
have that of $(getconf GNU_LIBC_VERSION) in them, as cc links it. Licence: MIT (LICENSE); that of glibc is the LGPL 2.1.
README
}

tell_readme() {
  tell_head
  tell_parts "$1"
  [ -n "$builds" ] || tell_proved
  tell_libc "$1"
}

# From nine lines before the line `N passed, M failed` to the end; that line has to say that none failed.
tell_gate() {
  if [ -n "$builds" ]; then
    echo "Nothing in this release is proved, and no gate ran over it."
  elif [ -z "$gate" ]; then
    echo "This release was made without the gate's output. At the commit that README names, .ci/run > FILE runs the gate, and"
    echo "tools/release.sh --gate FILE makes the release with its last lines."
  else
    echo "The last lines of the gate, as they were given to tools/release.sh: that it ran at the commit of README is the word of who made the release."
    echo
    sed -n "$((verdict > 9 ? verdict - 9 : 1)),\$p" "$gate"
  fi
}

# The tracked files of some folders, as they stand here.
put_tracked() {
  git ls-files -z -- "${@:2}" > "$work/tracked"
  tar --create --null --files-from="$work/tracked" | tar --extract --directory="$1"
}

tell_pkg_config() {
  printf '%s\n' "prefix=\${pcfiledir}/../.." "libdir=\${prefix}/lib" "includedir=\${prefix}/include" '' 'Name: mulkavesh' \
    'Description: A verified module layer for WebAssembly' "Version: $version" "Libs: -L\"\${libdir}\" -lmulkavesh" "Cflags: -I\"\${includedir}\""
}

# Lays a release out in a folder.
lay_out() {
  local it
  mkdir -p "$1"/{bin,lib/pkgconfig,include,share/man/man1,share/bash-completion/completions,share/zsh/site-functions,share/fish/vendor_completions.d,web}
  link walrus_gc "$1/bin" walrus-gc
  link mulkavesh "$1/bin" mulkavesh
  tools/library.sh "$(built lib/libmulkavesh.a)" "$1/lib"
  for it in libmulkavesh.a libmulkavesh.so; do cmp -s "$1/lib/$it" "$(built lib)/$it" || fail "$(built lib)/$it isn't what is linked of the archive"; done
  tell_pkg_config > "$1/lib/pkgconfig/mulkavesh.pc"
  cp include/mulkavesh.h "$1/include"
  cp man/*.1 "$1/share/man/man1"
  for it in completions/*.bash; do cp "$it" "$1/share/bash-completion/completions/$(basename "$it" .bash)"; done
  for it in completions/*.zsh; do cp "$it" "$1/share/zsh/site-functions/_$(basename "$it" .zsh)"; done
  cp completions/*.fish "$1/share/fish/vendor_completions.d"
  put_tracked "$1" rust python ':!python/tests' ':!*/.gitignore' LICENSE
  cp -r "$(built web)/." "$1/web"
  cp tools/install-to.sh "$1"
  tell_gate > "$1/GATE"
  tell_readme "$1" > "$1/README"
  (cd "$1" && find . -type f ! -path ./SHA256SUMS -printf '%P\0' | LC_ALL=C sort -z | xargs -0 sha256sum > "$work/sums" && mv "$work/sums" SHA256SUMS)
}

# Packs the release that is laid out in a folder.
pack() {
  tar --create --format=ustar --sort=name --owner=0 --group=0 --numeric-owner --mode=u=rwX,go=rX --mtime="@$when" -C "$1" "$name" | gzip -9 -n > "$2"
}

for crate in "${crates[@]}" mulkavesh_c; do [ -d "crates/$crate" ] || fail "there is no crate $crate"; done
for it in git cc readelf node python3; do command -v "$it" > /dev/null || fail "there is no $it; tools/install.sh puts in what these scripts take"; done
version=$(said CHANGELOG.md '^## VERSION' || true)
[ -n "$version" ] || fail "CHANGELOG.md has no version"
agree || fail "the versions differ"
changed=$(git status --porcelain | grep -vxF "?? ${gate#"$top/"}" || true)
[ -z "$changed" ] || [ -n "$builds" ] || fail "the tree isn't as it is committed: $(echo "$changed" | head -n 1)"
when=${SOURCE_DATE_EPOCH:-$(git log -1 --format=%ct)}
if [ -n "$gate" ]; then
  verdict=$(grep -anE '^[0-9]+ passed, [0-9]+ failed$' "$gate" | tail -n 1 | cut -d : -f 1)
  [ -n "$verdict" ] || fail "$gate has no line 'N passed, M failed'"
  wrong=$({ sed -n "${verdict}p" "$gate" | grep -v ', 0 failed$'; sed "1,${verdict}d" "$gate" | grep -aE '^FIND |there are finds'; } | head -n 1)
  [ -z "$wrong" ] || fail "by $gate the gate failed: $wrong"
fi
if [ -n "$builds" ]; then
  make_unproved
else
  make_proved
  are_proved "${crates[@]}"
fi
name=mulkavesh-$version${builds:+-unproved}
tarball=mulkavesh-$version-x86_64-linux${builds:+-unproved}.tar.gz
for turn in once twice; do
  lay_out "$work/$turn/$name"
  pack "$work/$turn" "$work/$turn.tar.gz"
done
cmp "$work/once.tar.gz" "$work/twice.tar.gz" || fail "laid out twice, it isn't the same bytes"
mkdir -p -- "$out"
tools/try_release.sh "$work/once.tar.gz" || fail "what was made doesn't do what it has to; nothing is left in $out"
install -m 644 "$work/once.tar.gz" "$out/$tarball.new" && mv -f -- "$out/$tarball.new" "$out/$tarball"
echo "release: $out/$tarball, $(stat -c %s "$out/$tarball") bytes, SHA-256 $(sha256sum "$out/$tarball" | cut -c 1-64)"
