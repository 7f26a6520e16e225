#compdef mulkavesh
# Completions of mulkavesh for zsh: put it under the name `_mulkavesh` into a folder of $fpath.

# The options of a subcommand.
_mulkavesh_options() {
  case $1 in
    gc) echo --keep --drop --no-names --no-producers --no-legacy --quiet --help ;;
    report) echo --keep --drop --json --no-legacy --no-names --no-producers --help ;;
    list) echo --dropped --exports --imports --by -n --keep --drop --json --no-legacy --no-names --no-producers --help ;;
    check) echo --json --no-legacy --no-names --no-producers --help ;;
    sections) echo --all --json --help ;;
    strip) echo --section --names --producers --debug --all --help ;;
    snip) echo --function --no-names --no-producers --no-legacy --quiet --help ;;
    stub) echo --module --import --no-names --no-producers --no-legacy --quiet --help ;;
    why) echo --callers --keep --drop --json --no-legacy --no-names --no-producers --help ;;
  esac
}

# What can stand at the cursor: a subcommand first; behind it an option, or a file; behind an option what its value can be, where
# that is known; and behind `help` a subcommand.
_mulkavesh() {
  local -a names
  names=(gc report list check sections strip snip stub why)
  if (( CURRENT == 2 )); then
    compadd -- $names help --help --version
  elif (( CURRENT == 3 )) && [[ $words[2] == help ]]; then
    compadd -- $names
  elif [[ $words[CURRENT-1] == --section ]]; then
    compadd -- name producers '.debug*' sourceMappingURL
  elif [[ $words[CURRENT-1] == --by ]]; then
    compadd -- size index
  elif [[ $words[CURRENT-1] == (--keep|--drop|--function|--module|--import|-n) ]]; then
    return 1
  elif [[ $words[CURRENT-1] != -o && $words[CURRENT-1] != --output && $PREFIX == -* ]]; then
    compadd -- ${=$(_mulkavesh_options $words[2])} -o --output
  else
    _files
  fi
}

_mulkavesh "$@"
