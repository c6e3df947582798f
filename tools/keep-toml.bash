# Completion of keep-toml, keep-toml-in and keep-toml-check for bash. After keep-toml-in FILE and a word it completes the
# paths of FILE itself, and after a path of set or put the value that is there.
_keep_toml_words="check check-wide list get text set insert rename remove table element apply apply-wide"
_keep_toml_more="put set-text insert-text put-text push push-text drop section has kind count keys find"

# the paths that continue the word, a step at a time
_keep_toml_paths() { # FILE WORD
    local path
    while IFS=$'\t' read -r path _; do
        [[ $path == "$2"* ]] && COMPREPLY+=("$(printf '%q' "$path")")
    done < <(keep-toml list < "$1" 2> /dev/null)
}

_keep_toml_files() { # WORD
    mapfile -t COMPREPLY < <(compgen -f -X '!*.toml' -- "$1"; compgen -d -S / -- "$1")
}

_keep_toml_in() { # WORD
    local first=1 path value
    while [[ ${COMP_WORDS[first]} == -[nv] ]] && ((first < COMP_CWORD)); do ((first++)); done
    local file=${COMP_WORDS[first]} subcommand=${COMP_WORDS[first + 1]-}
    case $((COMP_CWORD - first)) in
    0) _keep_toml_files "$1" ;;
    1) mapfile -t COMPREPLY < <(compgen -W "$_keep_toml_words $_keep_toml_more" -- "$1") ;;
    2)
        case $subcommand in
        check | check-wide | list | apply | apply-wide) ;;
        *) [[ -f $file ]] && _keep_toml_paths "$file" "$1" ;;
        esac
        ;;
    3)
        [[ -f $file && ($subcommand == set || $subcommand == put) ]] || return
        # the path as the shell would read it
        path=$(printf '%s\n' "${COMP_WORDS[first + 2]}" | xargs printf %s 2> /dev/null)
        value=$(keep-toml get -- "$path" < "$file" 2> /dev/null) && [[ $value == "$1"* || -z $1 ]] && COMPREPLY=("$(printf '%q' "$value")")
        ;;
    esac
}

_keep_toml() {
    local word=${COMP_WORDS[COMP_CWORD]} file i
    COMPREPLY=()
    case ${COMP_WORDS[0]##*/} in
    keep-toml-in) _keep_toml_in "$word" ;;
    keep-toml-check) _keep_toml_files "$word" ;;
    *)
        if ((COMP_CWORD == 1)); then
            mapfile -t COMPREPLY < <(compgen -W "$_keep_toml_words" -- "$word")
            return
        fi
        # the file behind a `<` that is there already
        file=
        for ((i = 1; i + 1 < ${#COMP_WORDS[@]}; i++)); do [[ ${COMP_WORDS[i]} == "<" ]] && file=${COMP_WORDS[i + 1]}; done
        [[ -f $file ]] && _keep_toml_paths "$file" "$word"
        ;;
    esac
}
complete -o default -o nospace -F _keep_toml keep-toml keep-toml-in keep-toml-check
