# What concerns rt, the command of the Rattle kit: whether it is there, and what it has done so far. Sourced by bash; it sets and runs nothing.

# have_rt: says so if rt is not on the PATH, and where it is expected.
have_rt() {
    command -v rt >/dev/null 2>&1 && return 0
    echo 'rt, the command of the Rattle kit, is not on the PATH: the kit is expected in /opt/rattle, and rt in /opt/rattle/bin' >&2
    return 1
}

# follow FOLDER LOG SHOW WORD..: runs rt WORD.. in FOLDER, with all that it says in LOG, and calls SHOW with each of its lines 'rt: ..' as it comes. The
# status is rt's.
follow() {
    local folder=$1 log=$2 show=$3 group status signal seen=0
    shift 3
    : >"$log" || return 2
    # A process group of its own: what rt starts does not heed control-C, so the group is ended as one.
    set -m
    (cd "$folder" && exec rt "$@") >"$log" 2>&1 </dev/null &
    group=$!
    set +m
    # shellcheck disable=SC2064
    for signal in INT TERM HUP; do trap "stop_following $signal" "$signal"; done
    while kill -0 "$group" 2>/dev/null; do
        sleep 0.5
        show_lines "$log"
    done
    { wait "$group"; } 2>/dev/null
    status=$?
    trap - INT TERM HUP
    # Where rt was killed, what it has started goes on without it.
    [ "$status" -le 128 ] || kill -TERM -- "-$group" 2>/dev/null
    show_lines "$log"
    return "$status"
}

# The lines that are whole and were not shown yet: the first seen lines were.
show_lines() { # LOG
    local whole line
    whole=$(wc -l <"$1")
    [ "$whole" -gt "$seen" ] || return 0
    while IFS= read -r line; do "$show" "$line"; done < <(sed -n "$((seen + 1)),${whole}p" "$1" | grep '^rt: ')
    seen=$whole
}

# Ends rt with all that it has started, and then this script as the signal would have ended it.
stop_following() { # SIGNAL
    kill -TERM -- "-$group" 2>/dev/null
    trap - "$1"
    kill -s "$1" "$BASHPID"
}
