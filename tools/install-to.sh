#!/usr/bin/env bash
# Installs a release under a folder: tools/install-to.sh DIR [TARBALL], where no TARBALL is given the one that tools/release.sh left in ./release. In a release
# this script stands beside README: ./install-to.sh DIR installs that release. It needs no root where DIR can be written.
#   DIR/bin, DIR/lib, DIR/include, DIR/share   the programs, the libraries and lib/pkgconfig/mulkavesh.pc, the header, the manual page and the completions
#   DIR/share/mulkavesh                        all else: rust, python, web, README, GATE, LICENSE; and INSTALLED, the SHA-256 of each file that was put under DIR
# All files are held against SHA256SUMS before the first one is installed, and only those that stand there are. Run again, also for another release, it puts the
# new files in the place of the old ones, and takes away those of INSTALLED that the new release doesn't have; other files under DIR stay as they are.
set -eu
umask 022
export LC_ALL=C
here=$(cd "$(dirname "$0")" && pwd)
fail() { echo "install-to: $1, so nothing is installed" >&2; exit 1; }
[ $# -ge 1 ] && [ $# -le 2 ] && [ -n "$1" ] && [[ $1 != -* ]] || { echo "usage: install-to.sh DIR [TARBALL]" >&2; exit 2; }
tarball=${2-}
work=$(mktemp -d)
trap 'rm -rf -- "$work"' EXIT

# The folder of the release: beside this script, or unpacked.
if [ -z "$tarball" ] && [ -f "$here/SHA256SUMS" ]; then
  from=$here
else
  if [ -z "$tarball" ]; then
    found=("$here"/../release/mulkavesh-*-x86_64-linux.tar.gz)
    [ -f "${found[0]}" ] || fail "there is no release in $(dirname "$here")/release (tools/release.sh makes one), and no TARBALL is given"
    [ ${#found[@]} = 1 ] || fail "there are ${#found[@]} releases in $(dirname "$here")/release, and no TARBALL is given"
    tarball=${found[0]}
  fi
  [ -f "$tarball" ] || fail "there is no file $tarball"
  mkdir "$work/unpacked"
  tar --extract --gzip --no-same-owner --file="$tarball" --directory="$work/unpacked" 2> /dev/null || fail "$tarball can't be unpacked"
  found=("$work"/unpacked/*)
  [ ${#found[@]} = 1 ] && [ -f "${found[0]}/SHA256SUMS" ] || fail "$tarball is no release"
  from=${found[0]}
fi
(cd "$from" && sha256sum --check --strict --quiet SHA256SUMS > "$work/told" 2>&1) || fail "the files aren't those of SHA256SUMS: $(head -n 1 "$work/told")"
cut -c 67- "$from/SHA256SUMS" > "$work/files"
! grep -Eq '^/|(^|/)\.\.(/|$)' "$work/files" || fail "SHA256SUMS names a file outside the release"

# Whether a folder can be written, which is made where it isn't there.
is_open() { mkdir -p -- "$1" 2> /dev/null && [ -w "$1" ]; }

is_open "$1" || fail "$1 can't be written"
dir=$(cd -- "$1" && pwd)
for it in bin lib lib/pkgconfig include share share/mulkavesh; do is_open "$dir/$it" || fail "$dir/$it can't be written"; done

# Where a file of the release is put.
place_of() {
  case $1 in
    bin/* | lib/* | include/* | share/*) echo "$1" ;;
    *) echo "share/mulkavesh/$1" ;;
  esac
}

installed=share/mulkavesh/INSTALLED
: > "$work/places"
while read -r file; do
  case $file in install-to.sh) continue ;; esac
  place=$(place_of "$file")
  [ -x "$from/$file" ] && mode=755 || mode=644
  install -D -m "$mode" -- "$from/$file" "$dir/$place"
  echo "$place" >> "$work/places"
done < "$work/files"
# mulkavesh.pc begins with the line of its prefix.
{ echo "prefix=$dir" && tail -n +2 "$from/lib/pkgconfig/mulkavesh.pc"; } > "$work/mulkavesh.pc"
install -m 644 -- "$work/mulkavesh.pc" "$dir/lib/pkgconfig/mulkavesh.pc"
# The package for Python looks for the library beside itself.
ln -sfn ../../../../lib/libmulkavesh.so "$dir/share/mulkavesh/python/mulkavesh/libmulkavesh.so"
echo share/mulkavesh/python/mulkavesh/libmulkavesh.so >> "$work/places"
sort -o "$work/places" "$work/places"
(cd "$dir" && tr '\n' '\0' < "$work/places" | xargs -0 sha256sum) > "$work/installed"
if [ -f "$dir/$installed" ]; then
  cut -c 67- "$dir/$installed" | grep -Ev '^/|(^|/)\.\.(/|$)' | sort | comm -23 - "$work/places" > "$work/gone" || true
  while read -r file; do rm -f -- "$dir/$file"; done < "$work/gone"
fi
install -m 644 -- "$work/installed" "$dir/$installed"

head -n 1 "$from/README"
grep -a '^NOTHING IN THIS' "$from/README" || true
cat << TOLD
$(wc -l < "$work/places") files are installed under $dir; $dir/share/mulkavesh has their sums (INSTALLED) and the packages.
  shell       PATH=$dir/bin:\$PATH
  C, C++      PKG_CONFIG_PATH=$dir/lib/pkgconfig, and pkg-config --cflags --libs mulkavesh; or $dir/lib/libmulkavesh.a
  Rust        MULKAVESH_LIB=$dir/lib, and cargo add --path $dir/share/mulkavesh/rust/mulkavesh
  Python      PYTHONPATH=$dir/share/mulkavesh/python, or pip install $dir/share/mulkavesh/python
  JavaScript  npm install $dir/share/mulkavesh/web
TOLD
