#!/bin/sh
# make bench: what the calls cost, as differences of runs of the crates entry_cost, auction_cost and desk_cost, each of which makes one call by its
# input; then what the session program costs beside the same in C, bench/strong.c and bench/plain.c.
cd "$(dirname "$0")/.." || exit 1
dir=$(mktemp -d) || exit 1
trap 'rm -rf "$dir"' EXIT
sh tools/build.sh entry_cost auction_cost desk_cost replay >"$dir/log" 2>&1 || {
    tail -n 20 "$dir/log" >&2
    exit 1
}

# run CRATE INPUT: instructions and bytes moved
run() {
    printf %s "$2" >"$dir/stdin"
    sh tools/count.sh "target/bin/$1" "$dir/stdin"
}
# What the second run has more than the first; a count that is missing stays so.
more() {
    echo "$1 $2" | awk '{ print $3 - $1, ($2 == "-") ? "-" : $4 - $2 }'
}

none=$(run entry_cost '') || exit 1
order=$(run entry_cost o) || exit 1
deletion=$(run entry_cost d) || exit 1
quote=$(run entry_cost q) || exit 1

row() { printf '%-28s %12s %12s\n' "$@"; }
row 'x86-64' instructions 'bytes moved'
# shellcheck disable=SC2046,SC2086
{
    row '511 orders' $none
    row '511 orders and an order' $order
    row '511 orders and a deletion' $deletion
    row '511 orders and a quote' $quote
    row 'one order' $(more "$none" "$order")
    row 'one deletion' $(more "$none" "$deletion")
    row 'one quote' $(more "$none" "$quote")
}

wide() { printf '%-28s %12s %12s %12s\n' "$@"; }
# table ORDERS TITLE: an opening, a theoretical answer and a ranked queue, for four sizes of a book of such orders
table() {
    echo
    wide "$2" opening theoretical 'ranked queue'
    for size in a:2 b:32 c:128 d:512; do
        none=$(run auction_cost "${size%:*}$1n") || exit 1
        opening=$(run auction_cost "${size%:*}$1a") || exit 1
        foreseen=$(run auction_cost "${size%:*}$1t") || exit 1
        queue=$(run auction_cost "${size%:*}$1q") || exit 1
        echo "$(more "$none" "$opening") $(more "$none" "$foreseen") $(more "$none" "$queue")" >"$dir/calls"
        read -r o ob t tb q qb <"$dir/calls"
        wide "${size#*:} orders" "$o" "$t" "$q"
    done
    wide 'bytes moved, 512 orders' "$ob" "$tb" "$qb"
}
table m 'mixed orders: instructions'
table o 'one limit: instructions'
table w 'the worst: instructions'
echo
# The longest queue: the sort calls itself more often for more ranks, and nothing else depends on the book.
printf %s dwa >"$dir/stdin"
stack=$(sh tools/stack.sh target/bin/auction_cost answers::auction "$dir/stdin") || exit 1
echo "stack of an auction: $stack bytes"

fail() {
    echo "bench: $*" >&2
    exit 1
}
# shellcheck source=tools/x86.sh
. tools/x86.sh

# What the square costs (02 K5). By value a desk is moved for each of the orders that fill its book, some 36 million bytes that a trace has one by
# one: what can do without string moves is counted without.
loops=--no-erms
[ -n "$emulator" ] || loops=
# in_loops CRATE INPUT: instructions, all copies made by loops
in_loops() {
    printf %s "$2" >"$dir/stdin"
    sh tools/count.sh ${loops:+"$loops"} "target/bin/$1" "$dir/stdin"
}
# opening CRATE ORDERS: what an opening of 512 such orders costs there
opening() {
    none=$(in_loops "$1" "d$2n") || exit 1
    called=$(in_loops "$1" "d$2a") || exit 1
    more "$none" "$called" | cut -d ' ' -f 1
}
echo
wide 'the square, in loops' without with ratio
for orders in m:mixed 'o:one limit' 'w:the worst'; do
    without=$(opening auction_cost "${orders%%:*}") || exit 1
    with=$(opening desk_cost "${orders%%:*}") || exit 1
    wide "opening, 512, ${orders#*:}" "$without" "$with" "$(echo "$without $with" | awk '{ printf "%.2f", $2 / $1 }')"
done
none=$(run desk_cost xmn) || exit 1
order=$(run desk_cost xmo) || exit 1
# shellcheck disable=SC2046
{
    row 'x86-64' instructions 'bytes moved'
    row 'one order with the square' $(more "$none" "$order")
}
printf %s dwa >"$dir/stdin"
stack=$(sh tools/stack.sh ${loops:+"$loops"} target/bin/desk_cost desk_auction::auction "$dir/stdin") || exit 1
echo "stack of an auction with the square: $stack bytes"

lib=$tools/lib
for part in "$tools/bin/clang" "$tools/bin/ld.lld" "$lib/Scrt1.o" "$lib/crti.o" "$lib/crtn.o" "$lib/libc.so.6"; do
    [ -e "$part" ] || fail "the kit has no $part: nothing here builds C for x86-64"
done
# compile SOURCE PROGRAM [FLAG]: by the kit's compiler, linker and C library; bench/include stands for the headers, which the kit has not.
compile() {
    "$tools/bin/clang" --target=x86_64-unknown-linux-gnu -march=x86-64 -std=c11 -O2 -fPIE -nostdinc -isystem bench/include ${3:+"$3"} \
        -c "$1" -o "$2.o" || fail "$1 is not compiled"
    "$tools/bin/ld.lld" -melf_x86_64 -pie -z now --dynamic-linker /lib64/ld-linux-x86-64.so.2 \
        "$lib/Scrt1.o" "$lib/crti.o" "$2.o" "$lib/libc.so.6" "$lib/crtn.o" -o "$2" || fail "$1 is not linked"
}
compile bench/records.c "$dir/records"
compile bench/strong.c "$dir/strong"
compile bench/plain.c "$dir/plain"
compile bench/plain.c "$dir/sums" -DRUNNING_SUMS

for file in empty mixed start full opening quotes overwriting; do
    x86 "$dir/records" "$file" >"$dir/$file" || fail "no session file $file"
    x86 target/bin/replay <"$dir/$file" >"$dir/lines" || fail "replay does not run $file"
    for program in strong plain sums; do
        x86 "$dir/$program" <"$dir/$file" | cmp -s - "$dir/lines" || fail "$program and replay print different lines for $file"
    done
done

# cost ERMS PROGRAM: instructions and bytes moved for each of the 5,000 mixed records, for each of the 512 orders of a file of orders only,
# for the auction of a full book, for each of 256 quotes that fill a book, each its member's first, and for each of 5,000 with which 8 members
# overwrite theirs. ERMS: as count.sh takes it, or nothing.
cost() {
    for file in empty mixed start full opening quotes overwriting; do
        sh tools/count.sh ${1:+"$1"} "$2" "$dir/$file" >"$dir/$file.count" || exit 1
    done
    (cd "$dir" && cat empty.count mixed.count start.count full.count opening.count quotes.count overwriting.count) | awk '
        { n[NR] = $1; bytes[NR] = $2 }
        function each(from, to, count) {
            printf "%.0f %s ", (n[to] - n[from]) / count, bytes[to] == "-" ? "-" : sprintf("%.0f", (bytes[to] - bytes[from]) / count)
        }
        END { each(1, 2, 5000); each(3, 4, 512); each(4, 5, 1); each(3, 6, 256); each(3, 7, 5000) }'
}
# line TITLE (COUNT BYTES)..: without the bytes where the C library has no string moves
line() {
    printf '%-28s' "$1"
    shift
    while [ $# -gt 0 ]; do
        printf ' %12s' "$1"
        [ "$erms" = --no-erms ] || printf ' %12s' "$2"
        shift 2
    done
    echo
}
# ratio TITLE COST: the instructions of replay for one of the other's
ratio() {
    echo "$replay $2" | awk '{ printf "%.2f %.2f %.2f %.2f %.2f\n", $1 / $11, $3 / $13, $5 / $15, $7 / $17, $9 / $19 }' >"$dir/ratios"
    read -r record order auction quote over <"$dir/ratios"
    line "$1" "$record" '' "$order" '' "$auction" '' "$quote" '' "$over" ''
}
# files TITLE [ERMS]: the table of the session files
files() {
    erms=$2
    replay=$(cost "$erms" target/bin/replay) || exit 1
    strong=$(cost "$erms" "$dir/strong") || exit 1
    plain=$(cost "$erms" "$dir/plain") || exit 1
    sums=$(cost "$erms" "$dir/sums") || exit 1
    echo
    line "$1" 'a record' 'bytes moved' 'an order' 'bytes moved' 'an auction' 'bytes moved' 'a first quote' 'bytes moved' 'another quote' 'bytes moved'
    # shellcheck disable=SC2086
    {
        line 'replay' $replay
        line 'strong C' $strong
        line 'plain C' $plain
        line 'C, running sums' $sums
    }
    ratio 'replay / strong C' "$strong"
    ratio 'replay / plain C' "$plain"
}
if [ -n "$emulator" ]; then
    files 'session files, with erms' --erms
    files 'session files, without erms' --no-erms
else
    echo "bench: no qemu-x86_64: the session files are counted once, with the C library's copies as they are here" >&2
    files 'session files'
fi
