# Completion of keep-toml and keep-toml-in for fish. After keep-toml-in FILE and a word it completes the paths of FILE itself.
set -l words check check-wide list get text set insert rename remove table element apply apply-wide
set -l more put set-text insert-text put-text push push-text drop section has kind count keys find

# the words of keep-toml-in without its options
function __keep_toml_given
    string match -v -r '^-[nv]$' -- (commandline -opc)
end

function __keep_toml_paths
    set -l given (__keep_toml_given)
    test -f "$given[2]"; and keep-toml list <"$given[2]" 2>/dev/null | cut -f 1
end

function __keep_toml_value
    set -l given (__keep_toml_given)
    contains -- "$given[3]" set put; and test -f "$given[2]"; and keep-toml get -- "$given[4]" <"$given[2]" 2>/dev/null
end

complete -c keep-toml -f -n 'test (count (commandline -opc)) -eq 1' -a "$words"
complete -c keep-toml -F -n 'test (count (commandline -opc)) -gt 1'
complete -c keep-toml-in -f
complete -c keep-toml-in -n 'test (count (__keep_toml_given)) -eq 1' -k -a '(__fish_complete_suffix .toml)'
complete -c keep-toml-in -n 'test (count (__keep_toml_given)) -eq 1' -s n -d 'print what would change'
complete -c keep-toml-in -n 'test (count (__keep_toml_given)) -eq 1' -s v -d 'tell whether it changed'
complete -c keep-toml-in -n 'test (count (__keep_toml_given)) -eq 2' -a "$words $more"
complete -c keep-toml-in -n 'test (count (__keep_toml_given)) -eq 3' -a '(__keep_toml_paths)'
complete -c keep-toml-in -n 'test (count (__keep_toml_given)) -eq 4' -a '(__keep_toml_value)'
