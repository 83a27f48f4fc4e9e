# The program multiply, unless NYUZOLAMBA_PROGRAM names another (with words before it, split at spaces): whether it is there, and how it is made. Sourced
# by lib.sh.
built=$root/target/bin/multiply

# Whether rt is at hand, if it is needed to make the program or to run it.
have_program_rt() {
    [ -n "${NYUZOLAMBA_PROGRAM:-}" ] || { [ "$machine" = x86_64 ] && up_to_date "$built"; } || have_rt
}

# Sets the array program, the words that run multiply; it is made if it is not there, or if a source is newer.
have_program() {
    local runner why='multiply is not built yet'
    if [ -n "${NYUZOLAMBA_PROGRAM:-}" ]; then
        read -ra program <<<"$NYUZOLAMBA_PROGRAM"
        return 0
    fi
    [ ! -f "$built" ] || why='a source of multiply is newer than it'
    up_to_date "$built" || make_program "$why" || return 1
    program_runner || return 1
    program=("${runner[@]}" "$built")
}

# make_program [WHY]: proves the program and makes it, one at a time, since two would write over each other's files. rt has the lock too, so that one
# which goes on without us is waited for.
make_program() {
    local status
    [ -n "${NYUZOLAMBA_PROGRAM:-}" ] && return 0
    have_rt && exec 9>"$out/program.lock" || return 1
    if command -v flock >/dev/null && ! flock -n 9; then
        echo 'another ./multiply is proving and building the program: waiting for it' >&2
        until flock -n 9; do sleep 0.5; done
    fi
    # Where there was a reason, the other may have done it.
    { [ -n "${1:-}" ] && up_to_date "$built"; } || make_locked "${1:-multiply is asked for}"
    status=$?
    exec 9>&-
    return "$status"
}

# make_locked WHY: with a line on standard error as each of its crates ends.
make_locked() {
    local all crates ended=0 start=$SECONDS began=$out/program.began name took word
    all=$(crates_of multiply) || return 1
    [ "${all##*$'\n'}" = multiply ] || { echo 'crates.txt has no line for multiply' >&2 && return 1; }
    crates=$(wc -w <<<"$all")
    echo "$1: its $crates crates are proved and it is built, this once; from nothing that takes some minutes" >&2
    : >"$began" && rm -f "$built" && mkdir -p "$(dirname "$built")" || return 1
    for name in $all; do
        word=lib took=$SECONDS
        # A program is proved, built and then run, here on an empty input.
        [ "$name" = multiply ] && word=run
        ended=$((ended + 1))
        follow "$root/crates/$name" "$out/program.log" : "$word" || { why_not_made "$name" >&2; return 1; }
        progress "$name" "proved ($((SECONDS - took)) s): $(purpose "$name")" >&2
    done
    cp "$root/crates/multiply/out/multiply" "$built.made" && touch -r "$began" "$built.made" && mv "$built.made" "$built" || return 1
    echo "multiply is proved and built, after $((SECONDS - start)) s" >&2
}

# progress NAME WORD..: how many crates have ended, the seconds so far, and what became of this one.
progress() { printf '%3d of %d, %3d s: %s\n' "$ended" "$crates" $((SECONDS - start)) "$*"; }

# crates_of NAME: the crates of crates.txt that NAME is made of, and NAME: each behind those that it uses.
crates_of() {
    awk -v name="$1" '
        { sub(/#.*/, "") }
        split($0, part, ":") == 2 { split(part[1], word, " "); below[word[1]] = part[2] }
        function visit(crate,   list, count, i) {
            if (!(crate in below) || seen[crate]++) return
            count = split(below[crate], list, " ")
            for (i = 1; i <= count; i++) visit(list[i])
            print crate
        }
        END { visit(name) }' "$root/crates.txt"
}

# purpose CRATE: what its source begins with, up to the first full stop or colon.
purpose() { sed -n '1{s,^// *,,;s/[.:].*//;p;q}' "$root/crates/$1/src/"{lib,main}.rt 2>/dev/null; }

# The first lines of what stood in the way, and where the rest is.
why_not_made() { # NAME
    local errors
    progress "$1" "NOT PROVED ($((SECONDS - took)) s)"
    errors=$(grep -m 3 ': error' "$out/program.log" || grep -v '^rt: ' "$out/program.log" | head -n 3)
    [ -n "$errors" ] || errors=$(tail -n 5 "$out/program.log")
    printf '%s:\n' "$1"
    printf '%s\n' "${errors//"$root/"/}" | cut -c 1-300 | sed 's/^/    /'
    echo "multiply is not built; all that rt said is in $out/program.log"
}
