# Completion of pm_trace and pm_chart for bash. tools/tests/test_installed.py holds it to their help.

# The words of a mode or a tool.
_pm_trace_words() {
    case $1 in
        '') echo run threads guest decode diff shrink fuzz perfetto pcapng --help --version ;;
        run) echo --trace --only --from --json --bytes --strict ;;
        threads) echo --turns ;;
        guest) echo --trace --json ;;
        diff) echo --order --exact --help ;;
        shrink) echo --keep --words --help ;;
        fuzz) echo --seed --steps --runs --whole --help ;;
        pcapng) echo --links --play --help ;;
        perfetto) echo --help ;;
        pm_chart) echo --html --from --to --port --page --title --help ;;
    esac
}

# Offers words, or files where none of them begins so.
_pm_trace_offer() {
    mapfile -t COMPREPLY < <(compgen -W "$1" -- "$2")
    [ "${#COMPREPLY[@]}" -gt 0 ] || mapfile -t COMPREPLY < <(compgen -f -- "$2")
}

_pm_trace() {
    local word=${COMP_WORDS[COMP_CWORD]} mode=''
    [ "$COMP_CWORD" -eq 1 ] || mode=${COMP_WORDS[1]}
    case ${COMP_WORDS[COMP_CWORD - 1]} in
        --only) _pm_trace_offer "faults port=" "$word" ;;
        --links) _pm_trace_offer "host all" "$word" ;;
        *) _pm_trace_offer "$(_pm_trace_words "$mode")" "$word" ;;
    esac
}

_pm_chart() {
    _pm_trace_offer "$(_pm_trace_words pm_chart)" "${COMP_WORDS[COMP_CWORD]}"
}

complete -o filenames -F _pm_trace pm_trace
complete -o filenames -F _pm_chart pm_chart
