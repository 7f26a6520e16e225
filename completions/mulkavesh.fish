# Completions of mulkavesh for fish: put it into ~/.config/fish/completions, or where the system keeps completions.

# Whether the first argument is one of these.
function __mulkavesh_first_is
    set -l words (commandline -opc)
    test (count $words) -ge 2; and contains -- $words[2] $argv
end

# Whether the cursor stands at this argument.
function __mulkavesh_stands_at
    test (count (commandline -opc)) -eq $argv[1]
end

set -l names gc report list check sections strip snip stub why
complete -c mulkavesh -n '__mulkavesh_stands_at 1' -f -a "$names help"
complete -c mulkavesh -n '__mulkavesh_stands_at 2; and __mulkavesh_first_is help' -f -a "$names"
complete -c mulkavesh -s h -l help -d 'tell the help'
complete -c mulkavesh -n '__mulkavesh_stands_at 1' -s V -l version -d 'tell the version'
complete -c mulkavesh -n "__mulkavesh_first_is $names" -s o -l output -r -d 'where the answer goes'
complete -c mulkavesh -n '__mulkavesh_first_is gc report list check snip stub why' -l no-names -d 'write no names'
complete -c mulkavesh -n '__mulkavesh_first_is gc report list check snip stub why' -l no-producers -d 'write no producers'
complete -c mulkavesh -n '__mulkavesh_first_is gc report list check snip stub why' -l no-legacy -d 'refuse legacy exceptions'
complete -c mulkavesh -n '__mulkavesh_first_is gc snip stub' -s q -l quiet -d 'say nothing of what was dropped'
complete -c mulkavesh -n '__mulkavesh_first_is report list check sections why' -l json -d 'write JSON'
complete -c mulkavesh -n '__mulkavesh_first_is gc report list why' -l keep -x -d 'of the exports those of this name stay'
complete -c mulkavesh -n '__mulkavesh_first_is gc report list why' -l drop -x -d 'the exports of this name go'
complete -c mulkavesh -n '__mulkavesh_first_is list' -l dropped -d 'list the functions that go'
complete -c mulkavesh -n '__mulkavesh_first_is list' -l exports -d 'list the exports that stay'
complete -c mulkavesh -n '__mulkavesh_first_is list' -l imports -d 'list the imports that stay'
complete -c mulkavesh -n '__mulkavesh_first_is list' -l by -x -a 'size index' -d 'what stands first'
complete -c mulkavesh -n '__mulkavesh_first_is list' -s n -x -d 'so many lines and no more'
complete -c mulkavesh -n '__mulkavesh_first_is snip' -l function -x -d 'make this function trap'
complete -c mulkavesh -n '__mulkavesh_first_is stub' -l module -x -d 'make the functions of this module trap'
complete -c mulkavesh -n '__mulkavesh_first_is stub' -l import -x -d 'of those the ones of this name'
complete -c mulkavesh -n '__mulkavesh_first_is why' -l callers -d 'list what refers to it'
complete -c mulkavesh -n '__mulkavesh_first_is strip' -l section -x -a "name producers '.debug*' sourceMappingURL" -d 'remove the sections of this name'
complete -c mulkavesh -n '__mulkavesh_first_is strip' -l names -d 'remove the names'
complete -c mulkavesh -n '__mulkavesh_first_is strip' -l producers -d 'remove the producers'
complete -c mulkavesh -n '__mulkavesh_first_is strip' -l debug -d 'remove debug information'
complete -c mulkavesh -n '__mulkavesh_first_is strip' -l all -d 'remove all custom sections that can go'
complete -c mulkavesh -n '__mulkavesh_first_is sections' -l all -d 'list what stands in the sections too'
