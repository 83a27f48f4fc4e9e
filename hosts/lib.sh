# Shared by the scripts of hosts/: where things are, what must be installed, how compiled Rattle is run on this machine. Sourced by bash.
export LC_ALL=C
hosts=$(dirname "$(readlink -f "${BASH_SOURCE[0]}")")
root=$(dirname "$hosts")
. "$hosts/kit.sh"
out=$root/target/hosts
machine=$(uname -m)
mkdir -p "$out"

# For scripts that people call, with any of the three streams closed. A closed input is an empty one; a closed output is said before minutes are spent,
# and before a Rust program takes it for one that swallows all.
open_streams() {
    true 3>&2 || exec 2>/dev/null
    { true 3<&0; } 2>/dev/null || exec </dev/null
    { true 3>&1; } 2>/dev/null || { echo "${0##*/}: standard output is closed, and nothing can be written" >&2; return 1; }
}

# need PACKAGE..: installs those of them that Debian does not have installed yet.
need() {
    local package missing=() sudo=
    for package in "$@"; do
        dpkg-query -W -f '${Status}\n' "$package" 2>/dev/null | grep -q ' installed$' || missing+=("$package")
    done
    [ ${#missing[@]} -gt 0 ] || return 0
    [ "$(id -u)" = 0 ] || sudo=sudo
    echo "installing ${missing[*]}" >&2
    {
        case "${missing[*]}" in *:amd64*) $sudo dpkg --add-architecture amd64 ;; esac
        $sudo apt-get update && $sudo env DEBIAN_FRONTEND=noninteractive apt-get install -y --no-install-recommends "${missing[@]}"
    } >"$out/install.log" 2>&1 || {
        tail -n 5 "$out/install.log" >&2
        echo "these packages are needed: ${missing[*]}" >&2
        return 1
    }
}

# Sets the array runner, the words before a program that rt built: none on x86-64; elsewhere the kit's emulator, loader and C library, as rt itself
# runs it.
program_runner() {
    local kit tools
    runner=()
    [ "$machine" = x86_64 ] && return 0
    have_rt || return 1
    kit=${RATTLE_HOME:-$(dirname "$(dirname "$(readlink -f "$(command -v rt)")")")}
    tools=$kit/on/$machine/toolchain
    [ -x "$tools/bin/qemu-x86_64" ] || { echo "the kit has no emulator at $tools" >&2; return 1; }
    runner=("$tools/bin/qemu-x86_64" "$tools/lib/ld-linux-x86-64.so.2" --library-path "$tools/lib")
}

# A Rust compiler for programs of this machine: the one at hand, else Debian's.
native_rustc() {
    command -v rustc && return 0
    need rustc gcc libc6-dev && command -v rustc
}

# ---- hosts that link an archive, which is for x86-64: that of the C face, or that of the library's requests over words
# Programs are cross-built on another machine and run under Debian's emulator.
archive=${NYUZOLAMBA_ARCHIVE:-$root/target/staticlib/libcface.a}
word_archive=${NYUZOLAMBA_WORDCALLS:-$root/target/staticlib/libwordcalls.a}

# Sets cc and host_runner (words before a host program), and installs what they need.
c_host() {
    if [ "$machine" = x86_64 ]; then
        need gcc libc6-dev || return 1
        cc=gcc host_runner=
    else
        need gcc-x86-64-linux-gnu libc6-dev-amd64-cross qemu-user || return 1
        cc=x86_64-linux-gnu-gcc host_runner=/usr/bin/qemu-x86_64
    fi
}

# The library allocates nothing: leaks would be the host's own, and looking for them fails in some containers.
export ASAN_OPTIONS=${ASAN_OPTIONS:-detect_leaks=0}

# build_c NAME SOURCE..: a C host with the archive. On x86-64 the sanitizers watch it; elsewhere it is linked statically, for the emulator, and
# the C library and the compiler watch copies and the stack.
build_c() {
    local more='-static -D_FORTIFY_SOURCE=2 -fstack-protector-strong'
    [ "$machine" = x86_64 ] && more='-fsanitize=address,undefined -fno-sanitize-recover=all'
    compile_c "$more" "$@"
}

# The same without the sanitizers: their start takes seconds on some machines.
build_c_plain() { compile_c -static "$@"; }

compile_c() { # FLAGS NAME SOURCE..
    local more=$1 name=$2
    shift 2
    # shellcheck disable=SC2086
    $cc -std=c99 -O2 -g -Wall -Wextra -Wconversion -pedantic -Werror $more -I "$root/include" -o "$out/$name" "$@" "$archive"
}

# The C host that keeps jobs; store_sources are also what the kill test builds.
store_sources=("$hosts"/c/{store,job,ledger,own}.c)
build_store() { build_c store "${store_sources[@]}"; }

# build_rust NAME SOURCE [ARCHIVE]: a Rust host with an archive; without a name, that of the C face.
build_rust() {
    local folder=$out/link/$1
    mkdir -p "$folder" && cp "${3:-$archive}" "$folder/libnyuzolamba.a" || return 1
    if [ "$machine" = x86_64 ]; then
        local rustc
        rustc=$(native_rustc) || return 1
        "$rustc" --edition 2021 -O -o "$out/$1" "$2" -L "native=$folder" -l static=nyuzolamba
    else
        # The compiler at hand has no library for x86-64; Debian's has.
        need rustc libstd-rust-dev:amd64 || return 1
        /usr/bin/rustc --edition 2021 -O --target x86_64-unknown-linux-gnu -C linker=x86_64-linux-gnu-gcc \
            -o "$out/$1" "$2" -L "native=$folder" -l static=nyuzolamba
    fi
}

# up_to_date FILE: it is there, and no source of the crates is newer.
up_to_date() {
    [ -f "$1" ] && [ -z "$(find "$root/crates" "$root/crates.txt" -name out -prune -o \( -name '*.rt' -o -name '*.antt' -o -name crates.txt \) -newer "$1" -print -quit)" ]
}

# made_archive CRATE FILE: proves a crate and makes its archive. Its time is that at which the proof began: a source that was changed since then is newer.
made_archive() {
    local log=$out/archive-$1.log
    : >"$log" && : >"$log.began" && have_rt && mkdir -p "$(dirname "$2")" || return 1
    # Copied beside it and then moved: half an archive would be newer than all sources.
    (cd "$root/crates/$1" && rt lib) >"$log" 2>&1 && cp "$root/crates/$1/out/lib$1.a" "$2.made" && touch -r "$log.began" "$2.made" && mv "$2.made" "$2" || {
        tail -n 20 "$log" >&2
        return 1
    }
}

# The archive of the C face, unless NYUZOLAMBA_ARCHIVE names one.
make_archive() { [ -n "${NYUZOLAMBA_ARCHIVE:-}" ] || made_archive cface_c "$archive"; }
have_archive() { up_to_date "$archive" || make_archive; }

# That of the requests over words, unless NYUZOLAMBA_WORDCALLS names one.
make_word_archive() { [ -n "${NYUZOLAMBA_WORDCALLS:-}" ] || made_archive wordcalls "$word_archive"; }
have_word_archive() { up_to_date "$word_archive" || make_word_archive; }

# The tool between digits and text, for this machine: made if it is missing or older than its sources, beside and then moved, since others may run it.
# It is for people: nothing is installed on their machine by the way.
digits=$out/digits
have_digits() {
    local sources=("$hosts/rust/digits" "$hosts/rust/common" "$hosts/rust/second/src/frame.rs")
    [ -x "$digits" ] && [ -z "$(find "${sources[@]}" -name '*.rs' -newer "$digits" -print -quit)" ] && return 0
    command -v rustc >/dev/null || { echo "digits are read by a tool in Rust, and there is no rustc on the PATH (Debian's package is rustc)" >&2; return 1; }
    rustc --edition 2021 -O -o "$digits.$$" "$hosts/rust/digits/src/main.rs" && mv "$digits.$$" "$digits"
}

. "$hosts/program.sh"
