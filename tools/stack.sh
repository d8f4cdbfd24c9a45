#!/bin/sh
# stack.sh [--no-erms] PROGRAM FUNCTION [STDIN]: prints how many bytes of stack a call of a function takes in an x86-64 program, with all
# that it calls: its return address to the lowest stack pointer before it returns. Of several calls the most; `-` where nothing can watch it. A
# program that moves much is watched sooner without erms, as count.sh says.
cpu=
[ "$1" != --no-erms ] || { cpu=max,-erms; shift; }
[ $# -ge 2 ] || { sed -n 2,4p "$0"; exit 2; }
program=$1
function=$2
in=${3:-/dev/null}
fail() {
    echo "stack: $*" >&2
    exit 1
}
[ -x "$program" ] || fail "no program $program"
at=$(nm "$program" | awk -v f="$function" '{ place = $1; sub(/^[^ ]+ [^ ]+ /, "") } $0 == f { print place }')
[ -n "$at" ] || fail "no function $function in $program"

# shellcheck source=tools/x86.sh
. "$(dirname "$0")/x86.sh"
if [ -z "$emulator" ]; then
    echo -
    exit
fi
# As in count.sh; here the loader is always named, so that the trace says where it puts the program.
if [ "$machine" = x86_64 ]; then
    set -- /lib64/ld-linux-x86-64.so.2 "$program"
else
    set -- "$tools/lib/ld-linux-x86-64.so.2" --library-path "$tools/lib" "$program"
fi

dir=$(mktemp -d) || exit 1
trap 'rm -rf "$dir"' EXIT
mkfifo "$dir/trace" || exit 1
# The registers before each instruction, and the system calls: the program's first mapping is where its place 0 is. The numbers all have
# 16 digits, so that they compare as text.
awk -v program="\"$program\"" -v at="$at" '
    function hex(s,    n, i) {
        for (i = 1; i <= length(s); i++) n = n * 16 + index("0123456789abcdef", substr(s, i, 1)) - 1
        return n
    }
    function text(n,    s) {
        for (s = ""; length(s) < 16; n = int(n / 16)) s = substr("0123456789abcdef", n % 16 + 1, 1) s
        return s
    }
    function ended() {
        if (hex(top) - hex(low) > most) most = hex(top) - hex(low)
        top = ""
    }
    index($0, "openat(") && index($0, program) { opened = 1 }
    opened && !start && / mmap\(NULL,/ { start = text(hex(substr($NF, 3)) + hex(at)) }
    /^RSI=/ { rsp = substr($NF, 5) }
    top && /^RIP=/ { if (rsp > top) ended(); else if (rsp < low) low = rsp }
    !top && start && /^RIP=/ && substr($1, 5) == start { top = low = rsp }
    END { if (most) printf "%d\n", most + 8 }' "$dir/trace" >"$dir/most" &
reader=$!
env -i "$emulator" ${cpu:+-cpu "$cpu"} "$single" -d nochain,cpu,strace -D "$dir/trace" "$@" <"$in" >/dev/null || {
    # it may wait for a trace that never comes
    kill "$reader" 2>/dev/null
    fail "the emulator did not run $program"
}
wait "$reader"
[ -s "$dir/most" ] || fail "$function was not called"
cat "$dir/most"
