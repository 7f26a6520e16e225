#!/usr/bin/env bash
# Tries a release as its user would: tools/try_release.sh TARBALL. tools/release.sh calls it at its end. It installs the release twice under a temporary folder:
#   programs   both, and both static ones, make the same bytes of tests/samples/c22-shared.wasm; the static ones also in a folder as root that has nothing else
#   C          the example of docs/USING.md, compiled by what pkg-config says (where it is there) and with the static library
#   Rust, Python, JavaScript   a call of each package (where there is cargo, node), which makes the same bytes
#   bash, man  the completions are taken, and the manual page is read (where there is groff)
# and all of them say the version that is in the release's name. install-to.sh has to refuse a file that was changed and a folder that can't be written, and to
# leave other files as they are. Prints a line for what isn't tried and for each find, and the count. Half a minute of one processor.
set -eu
top=$(cd "$(dirname "$0")/.." && pwd)
[ $# = 1 ] && [ -f "$1" ] || { echo "usage: tools/try_release.sh TARBALL" >&2; exit 2; }
tarball=$(realpath -- "$1")
sample=$top/tests/samples/c22-shared.wasm
work=$(mktemp -d)
trap 'rm -rf -- "$work"' EXIT
dir=$work/installed
tried=0 finds=0

# Tries a command, by a name.
try() {
  tried=$((tried + 1))
  "${@:2}" > "$work/told" 2>&1 && return
  finds=$((finds + 1))
  echo "FIND $1: $(tail -n 3 "$work/told")"
}

untried() { echo "tools/try_release.sh: not tried: $1"; }

# Whether a command that reads the sample writes what is wanted.
makes() {
  "${@:2}" < "$sample" > "$work/made"
  cmp "$work/made" "$1"
}

says() { [ "$("${@:2}")" = "$1" ]; }

refuses() { ! "$@"; }

# Runs a command in a folder as its root, as who may do so.
rooted() {
  if [ "$(id -u)" = 0 ]; then chroot "$@"; else unshare --map-root-user chroot "$@"; fi
}

# The first example of a language in docs/USING.md.
example() { awk -v begin="\`\`\`$1" '$0 == "```" && on { exit } on { print } $0 == begin { on = 1 }' "$top/docs/USING.md"; }

try_installing() {
  mkdir -p "$dir/bin" && echo mine > "$dir/bin/other"
  try "install-to.sh" "$top/tools/install-to.sh" "$dir" "$tarball"
  [ "$finds" = 0 ] || { cat "$work/told"; exit 1; }
  (cd "$dir" && find . -printf '%P %m %l\n' | sort) > "$work/first"
  mkdir "$work/unpacked" && tar --extract --file="$tarball" --directory="$work/unpacked"
  release=$(echo "$work"/unpacked/*)
  echo "$(sha256sum < "$dir/bin/other" | cut -c 1-64)  bin/walrus-gc.old" >> "$dir/share/mulkavesh/INSTALLED" && echo old > "$dir/bin/walrus-gc.old"
  try "install-to.sh again, from the release" "$release/install-to.sh" "$dir"
  (cd "$dir" && find . -printf '%P %m %l\n' | sort) > "$work/second"
  try "the second time leaves the same files" diff "$work/first" "$work/second"
  try "another file stays" grep -qx mine "$dir/bin/other"
  try "INSTALLED has the sums" env -C "$dir" sha256sum --check --quiet share/mulkavesh/INSTALLED
  try "a folder that can't be written" refuses "$release/install-to.sh" /proc/none
  try "a file in place of the folder" refuses "$release/install-to.sh" "$sample"
  try "no tarball" refuses "$release/install-to.sh" "$work/none" "$sample"
  echo >> "$release/include/mulkavesh.h"
  try "a file that was changed" refuses "$release/install-to.sh" "$work/none"
  try "nothing of it is installed" [ ! -e "$work/none" ]
}

try_programs() {
  "$dir/bin/walrus-gc" < "$sample" > "$work/wanted"
  "$dir/bin/walrus-gc" --no-producers < "$sample" > "$work/no-producers"
  try "the program drops something" [ "$(stat -c %s "$work/wanted")" -lt "$(stat -c %s "$sample")" ]
  try "walrus-gc.static" makes "$work/wanted" "$dir/bin/walrus-gc.static"
  for it in mulkavesh mulkavesh.static; do
    try "$it" makes "$work/wanted" "$dir/bin/$it" gc
    try "$it, from a file to a file" "$dir/bin/$it" gc "$sample" -o "$work/$it.wasm"
    try "$it, from a file to a file" cmp "$work/$it.wasm" "$work/wanted"
    try "$it --version" says "mulkavesh $version" "$dir/bin/$it" --version
  done
  mkdir "$work/root" && cp "$dir"/bin/*.static "$work/root"
  if rooted / true 2> /dev/null; then
    try "walrus-gc.static, alone" makes "$work/wanted" rooted "$work/root" /walrus-gc.static
    cp "$sample" "$work/root/in.wasm"
    try "mulkavesh.static, alone" rooted "$work/root" /mulkavesh.static gc in.wasm -o out.wasm
    try "mulkavesh.static, alone" cmp "$work/root/out.wasm" "$work/wanted"
  else
    untried "the static programs in a folder of their own as root, which this user may not"
  fi
}

try_c() {
  local flags=("-I$dir/include" "-L$dir/lib" -lmulkavesh)
  example c > "$work/smaller.c"
  if command -v pkg-config > /dev/null; then
    export PKG_CONFIG_PATH=$dir/lib/pkgconfig
    try "mulkavesh.pc" says "$version $dir" echo "$(pkg-config --modversion mulkavesh) $(pkg-config --variable=prefix mulkavesh)"
    read -r -a flags <<< "$(pkg-config --cflags --libs mulkavesh)"
  else
    untried "mulkavesh.pc, since there is no pkg-config"
  fi
  try "C, shared" cc "$work/smaller.c" "${flags[@]}" "-Wl,-rpath,$dir/lib" -o "$work/shared"
  try "C, shared" makes "$work/no-producers" "$work/shared"
  try "C, static" cc "-I$dir/include" "$work/smaller.c" "$dir/lib/libmulkavesh.a" -o "$work/static"
  try "C, static" makes "$work/no-producers" "$work/static"
}

try_rust() {
  mkdir -p "$work/use/src" && example rust > "$work/use/src/main.rs"
  printf '[package]\nname = "use_mulkavesh"\nversion = "0.0.0"\nedition = "2021"\n[dependencies]\nmulkavesh = { path = "%s" }\n' \
    "$dir/share/mulkavesh/rust/mulkavesh" > "$work/use/Cargo.toml"
  try "Rust" env MULKAVESH_LIB="$dir/lib" CARGO_TARGET_DIR="$work/target" cargo build --quiet --offline --manifest-path "$work/use/Cargo.toml"
  try "Rust" makes "$work/wanted" "$work/target/debug/use_mulkavesh"
}

try_python() {
  local python=(env -u MULKAVESH_LIB "PYTHONPATH=$dir/share/mulkavesh/python" python3 -B -c)
  try "Python" makes "$work/wanted" "${python[@]}" 'import mulkavesh, sys; sys.stdout.buffer.write(mulkavesh.gc(sys.stdin.buffer.read()))'
  try "Python's version" says "$version" "${python[@]}" 'import mulkavesh; print(*mulkavesh.version(), sep=".")'
}

try_javascript() {
  cat > "$work/try.mjs" << 'JS'
import { readFileSync, writeSync } from 'node:fs';
const { load } = await import(`${process.argv[2]}/mulkavesh.js`);
const { gc, version } = await load();
writeSync(1, process.argv[3] === 'version' ? version() : gc(readFileSync(0)));
JS
  try "JavaScript" makes "$work/wanted" node "$work/try.mjs" "$dir/share/mulkavesh/web"
  try "JavaScript's version" says "$version" node "$work/try.mjs" "$dir/share/mulkavesh/web" version
}

try_shell() {
  try "the completions" bash -c '. "$0" && complete -p mulkavesh' "$dir/share/bash-completion/completions/mulkavesh"
  if command -v zsh > /dev/null; then
    try "the completions for zsh" says "" zsh -n "$dir/share/zsh/site-functions/_mulkavesh"
  else
    untried "the completions for zsh, since there is no zsh"
  fi
  if command -v fish > /dev/null; then
    try "the completions for fish" says "" fish -n "$dir/share/fish/vendor_completions.d/mulkavesh.fish"
  else
    untried "the completions for fish, since there is no fish"
  fi
  if command -v groff > /dev/null; then
    try "the manual page" says "" bash -c 'groff -man -Tascii -ww "$0" 2>&1 > /dev/null' "$dir/share/man/man1/mulkavesh.1"
  else
    untried "the manual page, since there is no groff"
  fi
}

version=$(tar --list --file="$tarball" | sed -n '1s/^mulkavesh-\([0-9.]*\).*/\1/p')
try_installing
try_programs
command -v cc > /dev/null && try_c || untried "C, since there is no cc"
cargo --version > /dev/null 2>&1 && try_rust || untried "Rust, since there is no cargo"
try_python
command -v node > /dev/null && try_javascript || untried "JavaScript, since there is no node"
try_shell
echo "tools/try_release.sh: $tried things tried, $finds finds"
[ "$finds" = 0 ]
