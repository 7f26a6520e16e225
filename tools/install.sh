#!/usr/bin/env bash
# Puts in what the scripts of tests/ compare with, as Debian's packages: wabt (wat2wasm, wasm-objdump, wasm-validate), binaryen (wasm-opt) and
# nodejs (node); what c.sh, rust.sh, python.sh and web.sh compile and run: g++ (cc, c++, nm), cargo, python3 and a Chromium, of which any will do; and what
# looks at types, mypy and node-typescript (tsc). What is there stays. The Chromium comes last, by itself, since it is large. Where a package can't be put in, it
# says which commands are missing, and ends with status 1: what is compared with them isn't compared then.
# `.ci/run` calls it, with a limit on its time. tools/install.sh [--look]: with --look nothing is put in.
set -u
here=$(dirname "$0")
declare -A package=([wat2wasm]=wabt [wasm-objdump]=wabt [wasm-validate]=wabt [wasm-opt]=binaryen [node]=nodejs
  [cc]=g++ [c++]=g++ [nm]=binutils [cargo]=cargo [python3]=python3 [mypy]=mypy [tsc]=node-typescript
  [chromium]=chromium-headless-shell)

# Whether a command is there, or what stands for it.
there() {
  if [ "$1" = chromium ]; then "$here/../tests/web/chromium.sh"; else command -v "$1"; fi > /dev/null
}

# The commands that aren't there, in the order of their names.
missing() {
  for command in "${!package[@]}"; do
    there "$command" || echo "$command"
  done | sort
}

# Their packages, each once.
packages() {
  for command; do
    echo "${package[$command]}"
  done | sort -u
}

# Puts packages in, by an index of them that is new where the old one doesn't have them.
put_in() {
  local install=(apt-get install -y -qq --no-install-recommends "$@")
  DEBIAN_FRONTEND=noninteractive "${install[@]}" > /dev/null 2>&1 && return
  apt-get update -qq > /dev/null 2>&1 && DEBIAN_FRONTEND=noninteractive "${install[@]}" > /dev/null 2>&1
}

mapfile -t lacking < <(missing)
if [ "${#lacking[@]}" -gt 0 ] && [ "${1-}" != --look ]; then
  mapfile -t wanted < <(packages "${lacking[@]}" | grep -v '^chromium')
  # Where one of them isn't known, none is put in: then each by itself.
  [ "${#wanted[@]}" = 0 ] || put_in "${wanted[@]}" || for one in "${wanted[@]}"; do put_in "$one" || true; done
  there chromium || put_in "${package[chromium]}" || true
  mapfile -t lacking < <(missing)
fi
[ "${#lacking[@]}" = 0 ] || { echo "tools/install.sh: there is no ${lacking[*]}" >&2; exit 1; }
