#!/usr/bin/env bash
# Runs the compiler on the words that it is given, in the folder that it is called from.
# Where the program is missing or older than a source, the toolchain proves and builds it first.
set -euo pipefail

top=$(cd "$(dirname "$(readlink -f "${BASH_SOURCE[0]}")")" && pwd)
crate=$top/crates/purs
program=$crate/out/purs

is_current() {
    [ -x "$program" ] || return 1
    local newer
    newer=$(find "$top/crates.txt" "$top"/crates/*/src "$top"/crates/*/specs "$top"/crates/*/proofs \
        -newer "$program" -print -quit 2>/dev/null || true)
    [ -z "$newer" ]
}

# `rt run` leaves the program behind. Without words it ends with a refusal, which shows that it was built.
# The program gets the time at which its building began, so that a source that changed meanwhile is newer.
build() {
    local log began answer
    log=$(mktemp)
    began=$(mktemp)
    SECONDS=0
    echo "purs: proving and building the program; the first time this takes up to half an hour" >&2
    answer=$(cd "$crate" && rt run 2>"$log" </dev/null) || true
    if [ "$answer" != "purs: bad words" ]; then
        cat "$log" >&2
        echo "purs: not built, as said above" >&2
        rm -f "$log" "$began"
        exit 2
    fi
    touch -r "$began" "$program"
    rm -f "$log" "$began"
    echo "purs: proved and built in $SECONDS seconds" >&2
}

is_current || build
exec "$program" "$@"
