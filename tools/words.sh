# shellcheck shell=bash disable=SC2154
# The words of bin/pm_trace: what is wrong with them, and the help. To be sourced; `top` is the top of the repository.

# Whether a word names a tool of tools/pm_tools.
is_tool() {
    case $1 in
        diff | shrink | fuzz | perfetto | pcapng) ;;
        *) return 1 ;;
    esac
}

# Whether these words of a tool run the program: not where they ask for help alone.
needs_program() {
    case " $* " in *" -h "* | *" --help "*) return 1 ;; esac
    case $1 in
        shrink | fuzz) ;;
        pcapng) [[ " $* " == *" --play "* ]] ;;
        *) return 1 ;;
    esac
}

# What is wrong with a word that has a value, as --turns=5.
misvalue() {
    local value=${1#*=}
    case $1 in
        --turns=*)
            [[ $value =~ ^0*([1-9][0-9]{0,7})$ ]] && [ "${BASH_REMATCH[1]}" -le 16777216 ] ||
                echo "--turns wants a decimal number from 1 to 16777216"
            ;;
        --from=*) [[ $value =~ ^[0-9]+$ ]] || echo "--from wants the number of a step, in decimal" ;;
        --only=*) [[ $value =~ ^(faults|port=0*([0-9]|1[0-5]))$ ]] || echo "--only wants port=N, N from 0 to 15, or faults" ;;
    esac
}

# What is wrong with the words of a mode of the program. The program judges them itself once it is built.
misuse() {
    local word file='' seen=' ' mode=${1-}
    case $mode in
        decode | run | threads | guest) ;;
        *) echo "'$mode' is no mode" && return ;;
    esac
    while shift && [ $# -gt 0 ]; do
        word=$1
        case $word in
            --only | --from | --turns) [ $# -gt 1 ] && word="$1=$2" && shift ;;
        esac
        case "$mode $word" in
            "run --trace" | "run --json" | "run --bytes" | "run --strict" | "guest --trace" | "guest --json" | "run --only="* | "run --from="* | "threads --turns="*)
                misvalue "$word" | grep . && return
                [[ $word == --only=* || $seen != *" ${word%%=*} "* ]] ||
                    { echo "${word%%=*} stands twice" && return; }
                seen="$seen${word%%=*} "
                ;;
            *" --unproved") echo "--unproved comes first, as in pm_trace --unproved $mode" && return ;;
            *" -"?*) echo "'$word' is no word of $mode, or has no value" && return ;;
            *)
                [ -z "$file" ] || { echo "'$word' is one file too many" && return; }
                file=$word
                ;;
        esac
    done
}

# The help as the program prints it, and then the words of this script.
show_help() {
    sed -n '/^pub const HELP/,/^";$/p' "$top/crates/trace/src/help.rt" | sed '1d;$d'
    cat "$top/tools/help.txt"
}
