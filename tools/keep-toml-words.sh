# shellcheck shell=sh
# shellcheck disable=SC2154,SC2034 # keep-toml-in, which reads this file, shares its variables
# The words of keep-toml-in: how each edit and each question is put to the program.
#
# Given: word, the word; program, the program; source, the text that is read. An edit writes the new text to $run/new,
# which is the old one until then, and leaves in status and said what the program answered last.

# How many words a word of keep-toml-in wants. The program counts those of its own.
wants_words() { # ARGUMENT ..
    case $word in
    put | push) [ $# -eq 2 ] || fail 2 "$word wants PATH VALUE" ;;
    *-text) [ $# -eq 2 ] || fail 2 "$word wants PATH TEXT" ;;
    drop) [ $# -eq 1 ] || fail 2 "drop wants PATH[N]" ;;
    section) [ $(($# % 2)) -eq 1 ] || fail 2 "section wants KEYS, and then KEY VALUE for each key" ;;
    has | kind | count | keys) [ $# -eq 1 ] || fail 2 "$word wants PATH" ;;
    find) [ $# -eq 3 ] || fail 2 "find wants PATH KEY TEXT" ;;
    esac
}

# All words, one a line.
all_words="check check-wide list get text set insert rename remove table element apply apply-wide
put set-text insert-text put-text push push-text drop section has kind count keys find"
is_word() { # WORD
    for it in $all_words; do [ "$it" != "$1" ] || return 0; done
    return 1
}

asks_help() { # ARGUMENT ..
    is_word "$word" && [ $# -eq 1 ] && { [ "$1" = --help ] || [ "$1" = -h ]; } && return
    case $word in
    set | insert | put | push) [ "${2-}" = --help ] || [ "${2-}" = -h ] ;;
    *) return 1 ;;
    esac
}

help() {
    case $word in
    check | check-wide | list | get | text | set | insert | rename | remove | table | element | apply | apply-wide)
        # (its help has status 2, on standard error)
        "$program" "$word" --help 2>&1 || : ;;
    *) usage ;;
    esac
}

# Texts as TOML writes them.

# A basic string of a text. Each line of the text is one record, so it is written as it is read.
quoted() { # TEXT
    printf '%s\n' "$1" | awk '
        BEGIN {
            for (i = 1; i < 32; i++) name[sprintf("%c", i)] = sprintf("\\u%04X", i)
            name["\010"] = "\\b"; name["\t"] = "\\t"; name["\014"] = "\\f"; name["\r"] = "\\r"
            name["\177"] = "\\u007F"; name["\""] = "\\\""; name["\\"] = "\\\\"
            printf "\""
        }
        {
            if (NR > 1) printf "\\n"
            count = split($0, plain, /[\001-\037\177"\\]/)
            at = 0
            for (i = 1; i <= count; i++) {
                at += length(plain[i]) + 1
                printf "%s%s", plain[i], (i < count ? name[substr($0, at, 1)] : "")
            }
        }
        END { printf "\"" }'
}

# A string of a text, between quotation marks as they are round another value, where they can be.
quoted_like() { # VALUE TEXT
    case $1 in
    "'''"*) ;;
    "'"*)
        case $2 in
        *\'* | *[[:cntrl:]]*) ;;
        *)
            printf "'%s'" "$2"
            return
            ;;
        esac
        ;;
    esac
    quoted "$2"
}

# The text of a word: what it is, or for - what standard input has, without its last newline. A zero byte becomes a byte
# that no text has, since the shell would lose it.
given_text() { # TEXT
    if [ "$1" = - ]; then
        set -- "$(tr '\000' '\377'; echo .)"
        set -- "${1%.}"
        set -- "${1%
}"
        case $1 in
        *"$(printf '\377')"*) fail 2 "TEXT has a byte that no text has" ;;
        esac
    fi
    printf '%s' "$1"
}

# Paths.

# The steps of a path, one a line, each with its dot.
steps() { # PATH
    printf '%s\n' "$1" | awk '{
        step = mark = ""
        count = length($0)
        for (i = 1; i <= count; i++) {
            c = substr($0, i, 1)
            if (mark == "") {
                if ((c == "." || c == "[") && i > 1) { print step; step = "" }
                if (c == "\"" || c == "\047") mark = c
            } else if (c == "\\" && mark == "\"") {
                step = step c
                c = substr($0, ++i, 1)
            } else if (c == mark) mark = ""
            step = step c
        }
        print step
    }'
}

# The path without its last key; nothing for a path of one step, and for one that ends in an index.
parent() { # PATH
    steps "$1" | awk '{ step[NR] = $0 } END { if (step[NR] !~ /^\[/) for (i = 1; i < NR; i++) printf "%s", step[i] }'
}

# The path as list writes it: a key that needs no quotation marks has none. The program writes each key.
normal() { # PATH
    case $1 in
    *[\'\"]*) ;;
    *)
        printf '%s' "$1"
        return
        ;;
    esac
    steps "$1" | while IFS= read -r step; do
        case $step in
        *[\'\"]*)
            case $step in .*) printf . ;; esac
            "$program" insert -- "${step#.}" 0 < /dev/null | "$program" list | cut -f 1 | tr -d '\n'
            ;;
        *) printf '%s' "$step" ;;
        esac
    done
}

# What stands at a path: found is value, table or nothing. A document that is refused ends the run.
look() { # PATH
    answer=$("$program" get -- "$1" 2>&1 > /dev/null < "$source")
    code=$?
    case $code$answer in
    0*) found=value ;;
    "1keep-toml: edit 0: NotValue") found=table ;;
    "1keep-toml: edit 0: NotFound") found=nothing ;;
    *) tell "$code" "$answer" get "$1" ;;
    esac
}

value_at() { "$program" get -- "$1" < "$source" 2> /dev/null; } # PATH

# How many items or elements a path has: doubled until there is none, and then halved.
count_items() { # PATH
    low=-1 high=0
    look "$1"
    while look "$1[$high]" && [ "$found" != nothing ]; do low=$high high=$((high * 2 + 1)); done
    while [ $((high - low)) -gt 1 ]; do
        middle=$(((low + high) / 2))
        look "$1[$middle]"
        if [ "$found" = nothing ]; then high=$middle; else low=$middle; fi
    done
    count=$high
}

# The kind of what is at a path, as list tells it.
kind_at() { # PATH
    if [ -z "$1" ]; then echo table; else
        "$program" list < "$source" 2> /dev/null | AT=$(normal "$1") awk -F '\t' '$1 == ENVIRON["AT"] { print $2 }'
    fi
}

# The last steps of the paths that are one step longer, one a line: .key, or [n].
children() { # PATH
    "$program" list < "$source" 2> /dev/null | AT=$(normal "$1") awk -F '\t' '
        BEGIN { at = ENVIRON["AT"]; from = length(at) }
        substr($1, 1, from) == at {
            step = (from ? "" : ".") substr($1, from + 1)
            if (step ~ /^(\.([A-Za-z0-9_-]+|"([^"\\]|\\.)*")|\[[0-9]+\])$/) print step
        }'
}

# Edits.

ask() { # SUBCOMMAND ARGUMENT ..
    asked=$1 asked_path=${2-} asked_value=${3-}
    shift
    said=$("$program" "$asked" -- "$@" 2>&1 >| "$run/new" < "$source")
    status=$?
}

make_new_text() { # ARGUMENT ..
    case $word in
    set-text | put-text)
        if has_text "$1" "$2"; then
            status=0
        else
            set -- "$1" "$(quoted_like "$(value_at "$1")" "$2")"
            if [ "$word" = set-text ]; then ask set "$@"; else put "$@"; fi
        fi
        ;;
    insert-text) ask insert "$1" "$(quoted "$2")" ;;
    push-text)
        count_items "$1"
        push "$1" "$(quoted_like "$(value_at "$1[$((count - 1))]")" "$2")"
        ;;
    push)
        count_items "$1"
        push "$@"
        ;;
    put | drop | section) "$word" "$@" ;;
    *) ask "$word" "$@" ;;
    esac
}

# Whether the string at a path means the text, byte for byte.
has_text() { # PATH TEXT
    "$program" text -- "$1" < "$source" >| "$run/text" 2> /dev/null && printf '%s' "$2" | cmp -s - "$run/text"
}

# Sets what is there. Else inserts it, below a new header of its table where no such table is and one can be.
put() { # PATH VALUE
    ask set "$@"
    [ "$status$said" = "1keep-toml: edit 0: NotFound" ] || return
    above=$(parent "$1")
    if [ -n "$above" ] && look "$above" && [ "$found" = nothing ]; then
        ask apply "$(scripted table "$above"; scripted insert "$@")"
        [ "$status" -ne 0 ] || return
    fi
    ask insert "$@"
}

# An edit, as scripts have it.
scripted() { # OP PATH [VALUE]
    printf '[[edit]]\nop = "%s"\npath = %s\n' "$1" "$(quoted "$2")"
    [ $# -eq 2 ] || printf 'value = %s\n' "$(quoted "$3")"
}

section() { # KEYS KEY VALUE ..
    keys=$1
    shift
    ask apply "$(
        scripted table "$keys"
        while [ $# -gt 0 ]; do
            scripted insert "$keys.$(quoted "$1")" "$2"
            shift 2
        done
    )"
}

# The layout of arrays. The program says where an item is: it is given a mark as one more item there, and the array is
# read again. The new array is then one value that is set, so all else in the file stays, as for each set. Where the
# layout is not plain, insert and remove of the program do it.
mark=918273645546372819

marked() { # SUBCOMMAND ARRAY N
    "$program" "$1" -- "$2[$3]" "$mark" < "$source" 2> /dev/null | "$program" get -- "$2" 2> /dev/null
    printf '\001'
}

# Adds an item after the count items that are there.
push() { # ARRAY VALUE
    ask insert "$1[$count]" "$2"
    [ "$status" -eq 0 ] && [ "$count" -gt 0 ] || return
    laid=$(pushed "$@") || return
    ask set "$1" "${laid%.}"
    # (an array that is too long for a word)
    [ "$status" -eq 0 ] || ask insert "$1[$count]" "$2"
}

pushed() { # ARRAY VALUE
    { marked insert "$1" "$count"; marked insert "$1" $((count - 1)); printf '%s\001' "$2"; } | awk -v mark="$mark" '
        BEGIN { RS = "\001" }
        NR == 1 { after = $0 }
        NR == 2 { before = $0 }
        NR == 3 { value = $0 }
        END {
            at = index(after, mark)
            head = substr(after, 1, at - 1)
            tail = substr(after, at + length(mark), length(after) - at - length(mark))
            before = substr(before, 1, index(before, mark) - 1)
            indent = before
            sub(/.*\n/, "", indent)
            # the last item begins its line, and nothing but its comma and a comment comes after it there
            if (at == 0 || index(tail, mark) || index(before, "\n") == 0 || indent !~ /^[ \t]*$/) exit 1
            if (!sub(/, $/, "", head) || !match(tail, /^[ \t]*,?[ \t]*(#[^\n]*)?\r?\n/)) exit 1
            line = substr(tail, 1, RLENGTH)
            rest = substr(tail, RLENGTH + 1)
            newline = (line ~ /\r\n$/ ? "\r\n" : "\n")
            if (line ~ /^[ \t]*,/) comma = ","
            else if (rest !~ /^([ \t]*(#[^\n]*)?\r?\n)*[ \t]*\]/) exit 1
            else head = head ","
            printf "%s%s%s%s%s%s%s.", head, line, indent, value, comma, newline, rest
        }'
}

# Takes an item out; one that is alone on its line goes with the line and the comment there.
drop() { # ARRAY[N]
    case $1 in
    *\[*\]) ;;
    *) fail 2 "drop wants PATH[N]; remove takes out a key" ;;
    esac
    ask remove "$1"
    [ "$status" -eq 0 ] && laid=$(dropped "${1%\[*}" "${1##*\[}") || return
    ask set "${1%\[*}" "${laid%.}"
    [ "$status" -eq 0 ] || ask remove "$1"
}

dropped() { # ARRAY N]
    { marked insert "$1" "${2%\]}"; marked set "$1" "${2%\]}"; } | awk -v mark="$mark" '
        BEGIN { RS = "\001" }
        NR == 1 { before = $0 }
        NR == 2 { after = $0 }
        END {
            at = index(after, mark)
            tail = substr(after, at + length(mark), length(after) - at - length(mark))
            before = substr(before, 1, index(before, mark) - 1)
            indent = before
            sub(/.*\n/, "", indent)
            if (at == 0 || index(tail, mark) || index(before, "\n") == 0 || indent !~ /^[ \t]*$/) exit 1
            if (!match(tail, /^[ \t]*,?[ \t]*(#[^\n]*)?\r?\n/)) exit 1
            line = substr(tail, 1, RLENGTH)
            rest = substr(tail, RLENGTH + 1)
            # without a comma it is the last, or its comma is on a later line
            if (line !~ /^[ \t]*,/ && rest !~ /^([ \t]*(#[^\n]*)?\r?\n)*[ \t]*\]/) exit 1
            printf "%s%s.", substr(before, 1, length(before) - length(indent)), rest
        }'
}

# Questions.

# An answer of the program as it is, or the fault that it tells.
read_only() { # ARGUMENT ..
    exec 3>&1
    said=$("$program" "$word" -- "$@" 2>&1 >&3 3>&- < "$source")
    status=$?
    [ "$status" -eq 0 ] || tell "$status" "$said" "$word" "$@"
}

question() { # ARGUMENT ..
    case $word in
    has | kind | count | keys | find)
        wants_words "$@"
        refused=65
        look "$1"
        [ "$found" != nothing ] || exit 1
        [ "$word" = has ] || "answer_$word" "$@"
        ;;
    get | text)
        if [ "${2-}" = --or ] && [ $# -eq 3 ] && look "$1" && [ "$found" = nothing ]; then
            if [ "$word" = get ]; then printf '%s\n' "$3"; else printf '%s' "$3"; fi
        elif [ "${2-}" = --or ] && [ $# -eq 3 ]; then
            read_only "$1"
        else
            read_only "$@"
        fi
        ;;
    *)
        is_word "$word" || other_word
        read_only "$@"
        ;;
    esac
}

answer_kind() { kind_at "$1"; } # PATH

answer_count() { # PATH
    case $(kind_at "$1") in
    array | array-of-tables | table | inline-table) children "$1" | wc -l | tr -d ' ' ;;
    *) exit 1 ;;
    esac
}

answer_keys() { # PATH
    case $(kind_at "$1") in
    table | inline-table) children "$1" | cut -c 2- ;;
    *) exit 1 ;;
    esac
}

answer_find() { # PATH KEY TEXT
    at=$(normal "$1")
    key=$(normal "$2")
    key=${key:+.$key}
    items=$("$program" list < "$source" 2> /dev/null | AT=$at KEY=$key awk -F '\t' '
        BEGIN { at = ENVIRON["AT"] "["; from = length(at); key = "]" ENVIRON["KEY"] }
        $2 == "string" && substr($1, 1, from) == at {
            rest = substr($1, from + 1)
            number = substr(rest, 1, index(rest, "]") - 1)
            if (substr(rest, length(number) + 1) == key) print number
        }')
    matching=
    for number in $items; do
        # (no zero byte gets lost)
        if [ "$("$program" text -- "${at}[$number]$key" < "$source" | tr '\000' '\377'; echo .)" = "$3." ]; then
            matching="$matching ${at}[$number]"
        fi
    done
    case $matching in
    "") exit 1 ;;
    " "*" $at"*)
        warn "$name: more than one is such:$matching"
        exit 1
        ;;
    *) printf '%s\n' "${matching# }" ;;
    esac
}
