# shellcheck shell=sh
# shellcheck disable=SC2154 # keep-toml-in, which reads this file, shares its variables
# How keep-toml-in tells a fault: where it is, what its words mean, and what may have been meant.
#
# Given: name, the file's name; source, the text that was read; word, the word of keep-toml-in; refused, the status of what
# is refused; program, the program.

# Shows where a fault is: NAME:LINE:COLUMN: FAULT, the line, and a mark. The text is standard input.
place() { # NAME OFFSET FAULT
    NAME=$(shown_line "$1") FAULT=$(shown_line "$3") awk -v at="$2" '
        function shown(s) { gsub(/[\001-\010\013-\037\177]|\302[\200-\237]/, "?", s); return s }
        function marked(s) { gsub(/[\200-\277]/, "", s); gsub(/[^\t]/, " ", s); return s }
        function columns(s) { gsub(/[\200-\277]/, "", s); return length(s) }
        { line = $0; if (at <= seen + length($0)) { found = 1; exit }; seen += length($0) + 1 }
        END {
            number = NR
            if (!found) { line = ""; number = NR + 1; at = seen }
            before = substr(line, 1, at - seen)
            after = substr(line, at - seen + 1)
            sub(/\r$/, "", after)
            if (number == 1) sub(/^\357\273\277/, "", before)
            column = columns(before) + 1
            if (length(before) > 100) { before = substr(before, length(before) - 79); sub(/^[\200-\277]+/, "", before); before = "..." before }
            if (length(after) > 60) { after = substr(after, 1, 57); sub(/[\300-\377]?[\200-\277]*$/, "", after); after = after "..." }
            printf "%s:%d:%d: %s\n", ENVIRON["NAME"], number, column, ENVIRON["FAULT"]
            printf "%5d | %s\n", number, shown(before after)
            printf "      | %s^\n", marked(before)
        }' >&2
}

# What the words of faults mean.
meaning() { # FAULT
    case $1 in
    *": KeyPart") echo "a key should stand here" ;;
    *": Escape") echo "there is no such escape in TOML" ;;
    *": Control") echo "this control character can't stand here" ;;
    *": Unclosed") echo "this string is not closed" ;;
    *": Integer") echo "no integer of TOML, or past 64 bits" ;;
    *": Float") echo "no float of TOML" ;;
    *": DateTime") echo "no date or time" ;;
    *": Word") echo "no value: a text needs quotation marks" ;;
    *": Structure") echo "this does not belong here" ;;
    "too deep"* | "value: too deep"*) echo "too many arrays and inline tables enclose one another" ;;
    *": DefinedTwice" | *"Conflict DefinedTwice") echo "this table is defined already" ;;
    *": NotAnArray" | *"Conflict NotAnArray") echo "this is no array of tables" ;;
    *": NotByDots" | *"Conflict NotByDots") echo "dotted keys can't add to this table" ;;
    *": NotATable" | *"Conflict NotATable") echo "a value stands at this key already, or on the way to it" ;;
    *": DuplicateKey" | *"Conflict DuplicateKey") echo "this key has a value already" ;;
    *"Conflict "*) echo "this header can't stand beside what is there" ;;
    *": NotFound")
        case $word in
        push | push-text) echo "no array stands there" ;;
        *) echo "nothing stands there" ;;
        esac
        ;;
    *": Exists") echo "something stands there already" ;;
    *": NotValue")
        case $word in
        text) echo "no string stands there" ;;
        *) echo "a table of its own lines stands there" ;;
        esac
        ;;
    *": NotTable") echo "what should hold it is no table" ;;
    *": NotKey") echo "the path has to end in a key" ;;
    *": Scattered") echo "it is written in several places" ;;
    *": TooDeep") echo "too many arrays and inline tables would enclose one another" ;;
    *": Profile") echo "this value is none of TOML v1.0.0" ;;
    "not UTF-8"*) echo "a document is UTF-8" ;;
    "script: shape") echo "a script has [[edit]] for each edit, and nothing else" ;;
    *": Op") echo "its op is none of set, insert, rename, remove, table and element" ;;
    *": Keys") echo "it wants op and path, for set and insert also value, for rename also key, all as strings" ;;
    *": Path") echo "its path can't be read, or has an index where a header has none" ;;
    *": Value") [ "$word" != section ] || { echo "no value of TOML: a text needs quotation marks" && return; }
        echo "its value can't be read: a text has quotation marks within the string, as in value = '\"x\"'" ;;
    *) return 1 ;;
    esac
}

# What may have been meant; nothing where there is no guess.
hint() { # FAULT [WORD [VALUE]]
    case $1 in
    *": NotFound")
        case $word in
        push | push-text) no_array "$2" ;;
        *) near "$2" ;;
        esac
        ;;
    *": Exists") echo "set or put changes it" ;;
    *": NotValue")
        case $word in
        get) echo "keys tells what it has" ;;
        text) echo "get prints what is there" ;;
        esac
        ;;
    *": Scattered") scattered "$2" ;;
    "path at "*) other_path "$2" ;;
    "value: syntax"*) plain_text "$2" "$3" ;;
    "script: syntax"* | "script: shape")
        # shellcheck disable=SC2016 # it is run by who reads the hint
        case $2 in
        *[\ =[]*) ;;
        *) [ ! -f "$2" ] && [ "${2%.toml}" = "$2" ] || printf 'SCRIPT is its text: %s "$(cat %s)"' "$word" "$2" ;;
        esac
        ;;
    esac
}

# A value that is no TOML, where a word for texts is there.
plain_text() { # PATH VALUE
    case $word in
    set | insert | put | push) ;;
    *) return ;;
    esac
    case $2 in
    "" | [\"\'\[\{]*) ;;
    *[!A-Za-z0-9._+/:~^@-]*) printf 'is it a text? %s-text %s ..' "$word" "$1" ;;
    *) printf 'is it a text? %s-text %s %s' "$word" "$1" "$2" ;;
    esac
}

# Paths as other tools write them.
other_path() { # PATH
    case $1 in
    '$.'* | .*) printf 'a path begins with a key: %s' "$(printf '%s' "$1" | sed 's/^[$.]*//')" ;;
    *\[-*)
        # (what is before it may be no path either)
        count_items "${1%%\[-*}" 2> /dev/null
        [ "$count" -eq 0 ] || printf 'items are counted from 0: the last one is %s[%d]' "${1%%\[-*}" $((count - 1))
        ;;
    *\[*=*) echo "find PATH KEY TEXT tells which element has a text" ;;
    *\[*\]*) [ "$word" != table ] && [ "$word" != element ] || echo "a header has keys alone" ;;
    /*) printf 'a path begins with a key, and has dots: %s' "$(printf '%s' "${1#/}" | tr / .)" ;;
    */*) printf 'a path has dots: %s' "$(printf '%s' "$1" | tr / .)" ;;
    *..* | *.) echo "a key is missing beside a dot" ;;
    *[!A-Za-z0-9._-]*) echo "a key of other characters than letters, digits, _ and - stands in quotation marks" ;;
    esac
}

# A table or an array of tables that has no one place.
scattered() { # PATH
    case $(kind_at "$1") in
    array-of-tables)
        count_items "$1"
        case $count in
        1) printf "remove '%s[0]'" "$1" ;;
        2) printf "remove '%s[1]', and then '%s[0]'" "$1" "$1" ;;
        *) printf "remove its elements, from '%s[%d]' down to '%s[0]'" "$1" $((count - 1)) "$1" ;;
        esac
        ;;
    table) [ "$word" != remove ] || echo "its parts can be removed one by one" ;;
    esac
}

# What stands where an array should be.
no_array() { # PATH
    kind=$(kind_at "$1")
    case $kind in
    "")
        close=$(near "$1")
        printf '%s' "${close:-put $1 '[..]' makes one}"
        ;;
    array-of-tables) printf 'element %s adds one more' "$1" ;;
    *) printf 'it is of the kind %s' "$kind" ;;
    esac
}

# What stands near a path where nothing stands.
near() { # PATH
    # (the list of a strange document is far longer than the document)
    "$program" list < "$source" 2> /dev/null | head -c 4000000 | AT=$(normal "$1") WORD=$word awk -F '\t' '
        # how many letters are to be changed, left out, added or turned round
        function distance(a, b,    i, j, n, m, d, cost, least) {
            n = length(a); m = length(b)
            if (n - m > 3 || m - n > 3) return 9
            for (i = 0; i <= n; i++) d[i, 0] = i
            for (j = 0; j <= m; j++) d[0, j] = j
            for (i = 1; i <= n; i++) for (j = 1; j <= m; j++) {
                cost = (substr(a, i, 1) != substr(b, j, 1))
                least = d[i - 1, j] + 1
                if (d[i, j - 1] + 1 < least) least = d[i, j - 1] + 1
                if (d[i - 1, j - 1] + cost < least) least = d[i - 1, j - 1] + cost
                if (i > 1 && j > 1 && substr(a, i, 1) == substr(b, j - 1, 1) && substr(a, i - 1, 1) == substr(b, j, 1) && d[i - 2, j - 2] + 1 < least)
                    least = d[i - 2, j - 2] + 1
                d[i, j] = least
            }
            return d[n, m]
        }
        # the first step of a path, without its dot
        function first(path) {
            sub(/^\./, "", path)
            if (match(path, /^\[[0-9]+\]/) || match(path, /^"([^"\\]|\\.)*"/) || match(path, /^[^.\[]+/)) return substr(path, 1, RLENGTH)
            return path
        }
        { kind[$1] = $2; order[NR] = $1 }
        END {
            # the longest part of the path at which something stands, and the step after it
            at = ENVIRON["AT"]
            rest = at
            there = ""
            while (rest != "") {
                step = first(rest)
                longer = there (substr(rest, 1, 1) == "." ? "." : "") step
                if (!(longer in kind)) break
                there = longer
                rest = substr(at, length(there) + 1)
            }
            if (rest == "") exit
            after = substr(at, length(longer) + 1)
            of = (there == "" ? "table" : kind[there])
            many = (of == "array-of-tables" ? "element" : "item")
            if (of == "array" || of == "array-of-tables") {
                count = 0
                while ((there "[" count "]") in kind) count++
                many = many (count == 1 ? "" : "s")
                if (step ~ /^\[/) printf "%s has %d %s", there, count, many
                else if (step ~ /^[0-9]+$/) printf "did you mean %s[%s]%s?", there, step, after
                else if (count) printf "%s has %d %s: did you mean %s[%d].%s%s?", there, count, many, there, count - 1, step, after
                else printf "%s has no %s", there, many
                exit
            }
            if (of != "table" && of != "inline-table") { printf "%s is no table, but of the kind %s", there, of; exit }
            if (step ~ /^\[/) { printf "%s is a table, and has keys", there; exit }
            least = (length(step) < 3 ? 1 : length(step) / 3 + 1)
            same = 0
            for (i = 1; i <= NR; i++) {
                path = order[i]
                if (there != "" && substr(path, 1, length(there) + 1) != there ".") continue
                key = (there == "" ? path : substr(path, length(there) + 2))
                if (first(key) == key) {
                    d = (tolower(key) == tolower(step) ? 0.5 : distance(key, step))
                    if (d < least && d < length(step)) { least = d; best = path }
                }
            }
            if (best != "") { printf "did you mean %s%s?", best, after; exit }
            # the same key in one other place
            for (i = 1; i <= NR; i++) {
                path = order[i]
                if (length(path) > length(at) && substr(path, length(path) - length(at)) == "." at) { same++; best = path }
            }
            if (same == 1) printf "did you mean %s?", best
        }'
}

# A word that is none, but is one elsewhere.
other_word() {
    case $word in
    delete | del | rm | unset | drop-key) fail 2 "there is no word $word: remove PATH takes a key, an item or a section out" ;;
    add | append | new) fail 2 "there is no word $word: insert PATH VALUE adds a key or an item, push PATH VALUE an item at the end" ;;
    update | replace | change | edit) fail 2 "there is no word $word: set PATH VALUE changes a value, put PATH VALUE also adds it" ;;
    read | show | print | value) fail 2 "there is no word $word: get PATH prints a value, text PATH what a string means" ;;
    move | mv) fail 2 "there is no word $word: rename PATH KEY changes a key" ;;
    length | len | size) fail 2 "there is no word $word: count PATH tells how many" ;;
    exists | contains) fail 2 "there is no word $word: has PATH tells" ;;
    type) fail 2 "there is no word $word: kind PATH tells" ;;
    ls | paths | tree) fail 2 "there is no word $word: list prints all paths" ;;
    validate | lint | test | verify) fail 2 "there is no word $word: check does" ;;
    diff) fail 2 "there is no word $word: keep-toml-in -n FILE WORD .. prints what a word would change" ;;
    esac
}

# Tells a fault, and ends. What the program says of words is told as it says it.
tell() { # STATUS TEXT SUBCOMMAND [WORD [VALUE]]
    case $1 in
    126 | 127)
        if [ $((${#4} + ${#5})) -gt 100000 ]; then fail 2 "the words are longer than the system lets them be (some 128 KiB each)"; fi
        fail 69 "$program can't run"
        ;;
    esac
    fault=${2#keep-toml: }
    if [ "$fault" = "$2" ]; then
        printf '%s\n' "$2" | shown >&2
    else
        told "$fault" "$3" "${4-}" "${5-}"
    fi
    [ "$1" -ne 1 ] || exit "$refused"
    exit "$1"
}

told() { # FAULT SUBCOMMAND PATH-OR-SCRIPT VALUE
    fault=$1 about=$3
    # of a script, the edit that is meant; a single edit has no number
    case $2-$fault in
    apply*"edit "[0-9]*)
        number=${fault#*edit }
        number=${number%%:*}
        about=$(printf '%s' "$3" | "$program" text "edit[$number].path" 2> /dev/null)
        # (of section, nobody gave the edits numbers)
        if [ "$word" = section ]; then fault="$about: ${fault##*: }"; else fault="edit $number${about:+ ($about)}: ${fault##*: }"; fi
        ;;
    *"-edit 0: "*)
        # (push is told of by the array that it was given, and not by the new item)
        case $word in push | push-text) about=${about%\[*} ;; esac
        fault="$about: ${fault#edit 0: }"
        ;;
    esac
    offset=$(printf '%s\n' "$1" | sed -n 's/.* at \([0-9][0-9]*\).*/\1/p')
    means=$(meaning "$1")
    guess=$(hint "$1" "$about" "$4")
    [ ${#guess} -lt 500 ] || guess=
    [ -z "$means$guess" ] || fault="$fault ($means${means:+${guess:+; }}$guess)"
    case $1 in
    "value: "*) printf '%s' "$4" | place VALUE "${offset:-0}" "$fault" ;;
    "path at "*) printf '%s' "$3" | place PATH "$offset" "$fault" ;;
    "script: "*" at "*) printf '%s' "$3" | place SCRIPT "$offset" "$fault" ;;
    *" at "*) place "$name" "$offset" "$fault" < "$source" ;;
    *) printf '%s: %s\n' "$(shown_line "$name")" "$(shown_line "$fault")" >&2 ;;
    esac
}

tell_last() { tell "$status" "$said" "$asked" "$asked_path" "$asked_value"; }
