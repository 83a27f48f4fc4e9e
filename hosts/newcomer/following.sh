# The trials of what is shown while rt works, with a rt of our own, which waits to be told to go on. Sourced by run.

stub() {
    mkdir "$room/stub" || exit 1
    cat >"$room/stub/rt" <<'END'
#!/usr/bin/env bash
here=$(dirname "$0")
case $1 in ci | lib | run) ;; *) exit 0 ;; esac
# Of the crates of multiply the first is proved at once.
[ "$1" = ci ] || [ "${PWD##*/}" != cells ] || exit 0
# Long enough for a look at what an earlier run has left.
sleep 1
[ "$1" != ci ] || printf 'rt: cells proved\nrt: cells: must-fail one: refused\n'
sleep 60 &
echo "$! $$" >"$here/started"
# Where a trial differs it may not be told, and the trials end without it.
until [ -e "$here/go" ] || [ ! -d "$here" ]; do sleep 0.1; done
kill "$!"
printf 'a line of the prover: error\n'
[ "$1" != ci ] || printf 'rt: rows NOT PROVED\nrt: ok%s\n%s\n' "$(cat "$here/edits")" "$(cat "$here/counts")"
exit "$(cat "$here/status")"
END
    chmod +x "$room/stub/rt"
}

# started LOG LINE PID: waits until the line is in the log, while the stub still waits.
started() {
    local times=100
    until grep -qs -- "$2" "$1" && [ -e "$room/stub/started" ]; do
        [ $((times -= 1)) -gt 0 ] && kill -0 "$3" 2>/dev/null || return 1
        sleep 0.1
    done
    [ ! -e "$room/stub/go" ] && kill -0 "$(cut -d ' ' -f 1 "$room/stub/started")"
}

# gone: what the stub has started has ended.
gone() {
    local times=50 pid
    for pid in $(cat "$room/stub/started"); do
        while kill -0 "$pid" 2>/dev/null; do
            [ $((times -= 1)) -gt 0 ] || return 1
            sleep 0.1
        done
    done
}

# gate COUNTS STATUS EDITS LOG: the gate with the stub, and everything beside the proofs left out.
gate() {
    local pid
    rm -f "$room"/stub/{go,started}
    echo "$1" >"$room/stub/counts" && echo "$2" >"$room/stub/status" && echo "$3" >"$room/stub/edits"
    PATH=$room/stub:$PATH bash .ci/run >"$4" 2>&1 </dev/null &
    pid=$!
    judge "the gate's log has a crate before rt ends" started "$4" '^rt: cells proved$' "$pid"
    judge "the gate's log has a must-fail edit before rt ends" started "$4" '^rt: cells: must-fail one' "$pid"
    touch "$room/stub/go"
    wait "$pid"
    judge 'each line in its order, and at the end the rest' [ "$(sed -n '/^rt: /p;/ok,/q' "$4" | head -n 4)" = "$shown$3" ]
}

gates() {
    local shown=$'rt: cells proved\nrt: cells: must-fail one: refused\nrt: rows NOT PROVED\nrt: ok' name part
    mkdir -p "$room/gate/hosts" "$room/gate/.ci" && cd "$room/gate" || exit 1
    cp "$root"/hosts/*.sh hosts && cp "$root/.ci/run" .ci || exit 1
    for name in .ci/promises .ci/refusals .ci/map hosts/run; do printf '#!/bin/sh\n' >"$name" && chmod +x "$name"; done
    part=' s  proofs, layout, must-fail edits and programs (rt ci)'
    gate '4 passed, 0 failed' 0 '; handles allowed: none; must-fail edits: 29 refused; done in this run' "$room/right"
    gate '2 passed, 3 failed' 1 '; handles allowed: none; must-fail edits: 29 refused; done in this run' "$room/wrong"
    gate '4 passed, 0 failed' 0 '; handles allowed: none; must-fail edits: 27 refused, 2 bad; done in this run' "$room/bad"
    judge 'the proofs pass' grep -q "^ *[0-9]*$part$" "$room/right"
    judge 'the proofs fail' grep -q "^ *[0-9]*$part (failed)$" "$room/wrong"
    judge 'an edit that does not fit fails' grep -q "^ *[0-9]*$part (failed)$" "$room/bad"
    # The other parts count alike in all.
    judge 'they count themselves' counted "$room/wrong" 2 3
    judge 'a bad edit counts as a failure' counted "$room/bad" 0 1
}

# counted LOG LESS MORE: so many passed less than where all is right, and so many failed.
counted() {
    awk -v less="$2" -v more="$3" 'FNR == NR { a = $1; b = $3; next } { c = $1; d = $3 } END { exit !(a - c == less && d - b == more) }' \
        <(tail -n 1 "$room/right") <(tail -n 1 "$1")
}

# building: starts multiply with the stub in the background, in a process group of its own; sets pid.
building() {
    rm -rf "$room"/stub/{go,started} target
    mkdir -p target/hosts && echo 'rt: texts proved' >target/hosts/program.log || exit 1
    echo 1 >"$room/stub/status"
    : >"$room/err"
    set -m
    # What runs in the background may have been started with control-C ignored, and no shell undoes that.
    env --default-signal=INT "PATH=$room/stub:$PATH" ./multiply <"$sample" >"$room/out" 2>"$room/err" &
    pid=$!
    set +m
    judge 'a crate is shown before rt ends' started "$room/err" ' 1 of [0-9]*,.* s: cells proved ([0-9]* s): Sixty-four cells at once$' "$pid"
}

# ended NAME STATUS PATTERN: it ends so within ten seconds, with nothing printed.
ended() {
    local got times=100
    while kill -0 "$pid" 2>/dev/null && [ $((times -= 1)) -gt 0 ]; do sleep 0.1; done
    [ "$times" -gt 0 ] || kill -KILL -- "-$pid"
    { wait "$pid"; } 2>/dev/null
    got=$?
    judge "$1" fits "$got:$(<"$room/out"):$(<"$room/err")" "$2::$3" || tell "$got" "$2"
    judge "$1: rt and what it started has ended" gone
}

# A second one waits for the first.
second_waits() {
    local other
    ./multiply <"$sample" >/dev/null 2>"$room/err2" &
    other=$!
    judge 'a second one waits' started "$room/err2" '^another ./multiply is proving and building the program: waiting for it$' "$other"
    kill -TERM "$other"
    { wait "$other"; } 2>/dev/null
}

builds() {
    local pid
    cd "$room/bare" || exit 1
    building
    touch "$room/stub/go"
    ended 'rt that fails' 2 $'*\n  2 of *buffers NOT PROVED (* s)\nbuffers:\n    a line of the prover: error\nmultiply is not built*'
    judge 'a program of a run that failed' [ ! -e target/bin/multiply ]
    judge 'nothing of an earlier run' [ "$(grep -c texts "$room/err")" -eq 0 ]
    building
    kill -KILL "$(cut -d ' ' -f 2 "$room/stub/started")"
    ended 'rt that is killed' 2 '*multiply is not built*'
    building
    second_waits
    kill -INT -- "-$pid"
    ended 'control-C' 130 '*Sixty-four cells at once'
    building
    kill -TERM "$pid"
    ended 'a signal to it alone' 143 '*Sixty-four cells at once'
}
