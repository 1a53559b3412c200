# shellcheck shell=bash disable=SC2154
# How bin/pm_trace builds its programs. To be sourced; the paths that it uses are those of bin/pm_trace.

# Whether this program is there, and no source is newer.
is_built() {
    [ -x "$1" ] &&
        [ -z "$(find "$top"/crates.txt "$top"/crates/*/src "$top"/crates/*/specs "$top"/crates/*/proofs \
            -newer "$1" -print -quit 2>/dev/null)" ]
}

# The libraries of this repository that the program stands on.
libraries() {
    local names=(pm_trace) i dep
    for ((i = 0; i < ${#names[@]}; i++)); do
        for dep in $(sed -n "s/^${names[i]}\( [^:]*\)*://p" "$top/crates.txt"); do
            [ -d "$top/crates/$dep" ] && [[ " ${names[*]} " != *" $dep "* ]] && names+=("$dep")
        done
    done
    echo "${names[@]:1}"
}

# Says on a terminal how far the build with this process and this stamp is.
say_progress() {
    local names count name last
    names=$(libraries)
    while kill -0 "$1" 2>/dev/null; do
        count=0
        for name in $names; do
            [ "$top/crates/$name/out/rlib/$name.rlib" -nt "$2" ] && count=$((count + 1))
        done
        last=$(grep -a '^so far:' "$proved_log" 2>/dev/null | tail -n 1)
        printf '\r\033[Kpm_trace: proving it first: %s of %s libraries; %s' \
            "$count" "$(wc -w <<<"$names")" "${last:-the first one}" | cut -c1-110 >&2
        sleep 2
    done
    printf '\r\033[K' >&2
}

build_proved() {
    local status stamp
    mkdir -p "${proved%/*}" && stamp=$(mktemp "${proved%/*}/built.XXXXXX") || return 1
    trap 'rm -f "$stamp"; kill $!; exit 130' INT TERM
    echo "pm_trace: no proved program, or a source is newer: it is proved and built now, an hour of processor time" >&2
    echo "pm_trace: 'pm_trace --unproved ..' builds one without a proof in a minute or two, keeps it, and then answers at once" >&2
    # rt runs what it has built: with an empty input that does nothing.
    (cd "$top/crates/pm_trace" && exec "${RT:-rt}" run -- decode) </dev/null >"$proved_log" 2>&1 &
    [ ! -t 2 ] || say_progress $! "$stamp"
    wait $!
    status=$?
    trap - INT TERM
    # A source that was changed while it was proved is newer than the program.
    [ $status -eq 0 ] && touch -r "$stamp" "$proved"
    rm -f "$stamp"
    return $status
}

# `rt try` removes its program once that has ended. So the program is given a pipe as its input, and copied while it waits.
build_unproved() {
    local folder=${unproved%/*} work made='' try opener status=1
    mkdir -p "$folder" && work=$(mktemp -d "$folder/work.XXXXXX") && mkfifo "$work/pipe" || return 1
    echo "pm_trace: built without a proof now, in a minute or two; build/unproved keeps it" >&2
    (cd "$top/crates/pm_trace" && TMPDIR=$work exec "${RT:-rt}" try -- decode "$work/pipe") </dev/null >"$unproved_log" 2>&1 &
    try=$!
    # Opening the pipe waits for the program.
    (exec 3>"$work/pipe" && : >"$work/is_waiting" && while [ -e "$work/is_waiting" ]; do sleep 0.1; done) &
    opener=$!
    trap 'kill $try $opener; rm -rf "$work"; exit 130' INT TERM
    while [ ! -e "$work/is_waiting" ] && kill -0 $try 2>/dev/null; do sleep 0.2; done
    made=$(find "$work" -type f -perm -u+x -print -quit 2>/dev/null)
    if [ -e "$work/is_waiting" ] && [ -n "$made" ]; then
        # A source that was changed while it was built is newer than the program.
        cp "$made" "$work/pm_trace" && touch -r "$work/pipe" "$work/pm_trace" && status=0
    fi
    rm -f "$work/is_waiting"
    [ $status -eq 0 ] || kill $opener $try 2>/dev/null
    wait $try $opener 2>/dev/null
    trap - INT TERM
    [ $status -eq 0 ] && mv "$work/pm_trace" "$unproved" && "$unproved" decode </dev/null >>"$unproved_log" 2>&1
    status=$?
    rm -rf "$work"
    return $status
}
