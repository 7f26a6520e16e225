#!/usr/bin/env bash
# Makes the library for JavaScript: web/build.sh [--unproved] [OUT], into the folder web/dist where none is given. What it leaves there is an npm package:
#   mulkavesh.wasm    the library mulkavesh_c as wasm32, which asks its host for nothing
#   mulkavesh.js      the calls of it, for Node and browsers; mulkavesh.d.ts has their types
#   module.js         a module as items that a program changes, over these calls, with items.js, differ.js, code.js and wire.js; opcodes.js; their types
#   index.html        a page over it, with page.js, page.css, keys.js, treemap.js and worker.js: any static host serves the folder
#   package.json, LICENSE
# It proves the crates first, as tools/build.sh mulkavesh_c, where that isn't done yet, and takes LLVM's module of what was proved. With --unproved that is of
# tools/unproved.sh: nothing in it is proved, and it takes five minutes of one processor and 1.5 GB. web/README.md says what is trusted. Nothing is needed but
# the kit; where there is node, the library makes itself smaller at the end.
set -eu
here=$(cd "$(dirname "$0")" && pwd)
top=$(dirname "$here")
way=()
[ "${1-}" != --unproved ] && way=(--proved) || shift
[ $# -le 1 ] || { echo "usage: web/build.sh [--unproved] [OUT]" >&2; exit 2; }
"$top/tools/build.sh" --needs web
out=${1:-$here/dist}
kit=$(dirname "$(dirname "$(readlink -f "$(command -v rt)")")")
clang=$kit/toolchain/bin/clang
work=$(mktemp -d)
trap 'kill $(jobs -p) 2> /dev/null && wait; rm -rf -- "$work"' EXIT
mkdir -p -- "$out" && out=$(realpath -- "$out")
wasm=(--target=wasm32-unknown-unknown -mbulk-memory -mnontrapping-fptoint -msign-ext -mmutable-globals -ffunction-sections -fdata-sections)

if [ ${#way[@]} = 0 ]; then
  "$top/tools/unproved.sh" --module "$work/module.ll" mulkavesh_c &
  wait $!
else
  "$top/tools/build.sh" mulkavesh_c
  "$here/proved.py" "$work/module.bc"
  "$clang" -Wno-everything -Xclang -disable-llvm-passes -O1 -S -emit-llvm -x ir "$work/module.bc" -o "$work/module.ll"
fi
"$here/to_wasm.py" "${way[@]}" < "$work/module.ll" > "$work/wasm.ll"
rm "$work/module.ll"
"$top/tools/heartbeat.sh" 10 "web: compiling" "$clang" "${wasm[@]}" -O2 -Wno-everything -c -x ir "$work/wasm.ll" -o "$work/library.o" &
wait $!
"$clang" "${wasm[@]}" -O2 -ffreestanding -fno-builtin -Wall -Wextra -Werror -c "$here/shim.c" -o "$work/shim.o"
mapfile -t shown < <("$top/tools/exports.py" --names mulkavesh_c | sed 's/^/--export=/')
"$kit/toolchain/bin/ld.lld" -flavor wasm --no-entry --stack-first -z stack-size=1048576 --export-memory --gc-sections --strip-all "${shown[@]}" \
  "$work/library.o" "$work/shim.o" -o "$work/mulkavesh.wasm"
cp "$here"/{mulkavesh.js,mulkavesh.d.ts,module.js,module.d.ts,opcodes.js,opcodes.d.ts,items.js,differ.js,code.js,wire.js,package.json} "$out"
cp "$here"/{index.html,page.js,page.css,keys.js,treemap.js,worker.js} "$top/LICENSE" "$out"
install -m 644 "$work/mulkavesh.wasm" "$out"
if command -v node > /dev/null; then
  node "$here/shrink.mjs" "$out"
else
  echo "web: mulkavesh.wasm isn't made smaller, since there is no node" >&2
fi
[ ${#way[@]} = 0 ] && told="nothing in it is proved" || told="of the proved library"
echo "web: $out/mulkavesh.wasm, $(stat -c %s "$out/mulkavesh.wasm") bytes: $told" >&2
