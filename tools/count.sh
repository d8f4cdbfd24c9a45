#!/bin/sh
# count.sh [--erms | --no-erms] PROGRAM [STDIN]: prints how many instructions an x86-64 program executes, a string move (rep movs, rep stos)
# counted once, and how many bytes string moves moved. A run's start-up is in both: subtract another run's. On a machine with erms, fast string
# moves, the C library copies by these from a size on that it takes from the machine, too: the bytes tell whether it did. Without it, never.
# With neither word the machine is the emulator's usual one.
erms=
case $1 in --erms | --no-erms) erms=$1; shift ;; esac
[ $# -ge 1 ] || { sed -n 2,5p "$0"; exit 2; }
program=$1
in=${2:-/dev/null}
fail() {
    echo "count: $*" >&2
    exit 1
}
[ -x "$program" ] || fail "no program $program"

# shellcheck source=tools/x86.sh
. "$(dirname "$0")/x86.sh"

if [ -z "$emulator" ]; then
    [ -z "$erms" ] || fail "no qemu-x86_64 on the PATH: nothing here can be told $erms"
    [ "$machine" = x86_64 ] || fail "no qemu-x86_64 on the PATH: nothing here runs an x86-64 program"
    command -v valgrind >/dev/null || fail "neither qemu-x86_64 nor valgrind is on the PATH: nothing here counts instructions"
    if command -v objdump >/dev/null && command -v python3 >/dev/null; then
        echo "count: by valgrind, for want of qemu-x86_64: with the machine's C library, and turns of string moves for their bytes" >&2
        exec python3 "$(dirname "$0")/turns.py" "$program" "$in"
    fi
    echo "count: by valgrind, for want of qemu-x86_64: each turn of a string move counts, and its bytes are not told apart" >&2
    n=$(valgrind --tool=callgrind --callgrind-out-file=/dev/null "$program" <"$in" 2>&1 >/dev/null | sed -n 's/.*Collected : *//p')
    [ -n "$n" ] || fail "valgrind counted nothing"
    echo "$n -"
    exit
fi

# With the kit's loader and C library, so that a count is not the machine's. Not by x86, whose emulator is told to copy otherwise than a machine would.
[ -x "$tools/lib/ld-linux-x86-64.so.2" ] || fail "the kit has no $tools/lib/ld-linux-x86-64.so.2: nothing here runs a program with its C library"
set -- "$tools/lib/ld-linux-x86-64.so.2" --library-path "$tools/lib" "$program"
case $erms in
--erms) set -- -cpu max "$@" ;;
--no-erms)
    # fsrm is the same for short moves; an emulator may not know it.
    cpu=max,-erms
    flags=" $("$emulator" -cpu help | tr '\n' ' ') "
    case $flags in *' erms '*) ;; *) fail "the emulator $emulator has no erms to leave out" ;; esac
    case $flags in *' fsrm '*) cpu=$cpu,-fsrm ;; esac
    set -- -cpu "$cpu" "$@"
    ;;
esac

# One line an instruction, 'Trace 0: HOST [00000000/PC/FLAGS/..]', and by the million: through a pipe, not a file.
dir=$(mktemp -d) || exit 1
trap 'rm -rf "$dir"' EXIT
mkfifo "$dir/trace" || exit 1
# A string move of bytes is traced once a byte: the same PC again and again.
awk -F/ '/^Trace/ {
        if ($2 != last) { n++; turns = 0 } else { bytes += turns ? 1 : 2; turns = 1 }
        last = $2
    }
    END { printf "%d %d\n", n, bytes }' "$dir/trace" >"$dir/counts" &
reader=$!
# An empty environment: it lies on the stack, whose place decides how a move is cut up.
env -i "$emulator" "$single" -d nochain,exec -D "$dir/trace" "$@" <"$in" >/dev/null || {
    # it may wait for a trace that never comes
    kill "$reader" 2>/dev/null
    fail "the emulator did not run $program"
}
wait "$reader"
read -r n bytes <"$dir/counts"
[ "$n" -gt 0 ] || fail "the emulator traced nothing"
echo "$n $bytes"
