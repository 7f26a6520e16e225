# Completions of mulkavesh for bash: `source` this file, or put it under the name `mulkavesh` where the system keeps completions.

# The options of a subcommand.
_mulkavesh_options() {
  case $1 in
    gc) echo --keep --drop --no-names --no-producers --no-legacy --quiet --help ;;
    report) echo --keep --drop --json --no-legacy --no-names --no-producers --help ;;
    list) echo --dropped --exports --imports --by -n --keep --drop --json --no-legacy --no-names --no-producers --help ;;
    check) echo --json --no-legacy --no-names --no-producers --help ;;
    sections) echo --all --json --help ;;
    strip) echo --section --names --producers --debug --all --help ;;
    snip) echo --function --no-names --no-producers --no-legacy --quiet --help ;;
    stub) echo --module --import --no-names --no-producers --no-legacy --quiet --help ;;
    why) echo --callers --keep --drop --json --no-legacy --no-names --no-producers --help ;;
  esac
}

# What can stand at the cursor: a subcommand first; behind it an option, or a file; behind an option what its value can be, where
# that is known; and behind `help` a subcommand.
_mulkavesh() {
  local word=${COMP_WORDS[COMP_CWORD]} before=${COMP_WORDS[COMP_CWORD - 1]} names='gc report list check sections strip snip stub why' words
  COMPREPLY=()
  if [ "$COMP_CWORD" = 1 ]; then
    words="$names help --help --version"
  elif [ "$COMP_CWORD" = 2 ] && [ "$before" = help ]; then
    words=$names
  elif [ "$before" = --section ]; then
    words='name producers .debug* sourceMappingURL'
  elif [ "$before" = --by ]; then
    words='size index'
  elif [[ $before = @(--keep|--drop|--function|--module|--import|-n) ]]; then
    return
  elif [ "$before" != -o ] && [ "$before" != --output ] && [[ $word = -* ]]; then
    words="$(_mulkavesh_options "${COMP_WORDS[1]}") -o --output"
  else
    mapfile -t COMPREPLY < <(compgen -f -- "$word")
    return
  fi
  mapfile -t COMPREPLY < <(compgen -W "$words" -- "$word")
}

complete -o filenames -F _mulkavesh mulkavesh
