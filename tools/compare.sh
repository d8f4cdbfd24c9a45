#!/bin/sh
# compare.sh [N]: the engine's programs and the second one on session files made by seed: what they print must be the same bytes.
# First the session program, then the looks, which print what the calls that change nothing answer meanwhile, then the rewriting of
# files, whose output is bytes, then who owes whom. The fixed sets, in which every rule has to come up; or with N the last-number session
# and seeds 1 to N, all but the sessions on the latter.
cd "$(dirname "$0")/.." || exit 1
session=target/bin/replay
looks=target/bin/looks
rewrite=target/bin/rewrite
clearing=target/bin/clearing
made=target/compare
fail() {
    echo "compare: $*" >&2
    exit 1
}
case ${1:-1} in *[!0-9]*) fail "how many seeds? N is a number" ;; esac
if ! command -v rustc >/dev/null 2>&1; then
    echo "compare: left out: there is no rustc on the PATH to build the second program and the comparison with"
    [ "$ALLOW_NO_RUSTC" = 1 ]
    exit
fi
for program in "$session" "$looks" "$rewrite" "$clearing"; do
    [ -x "$program" ] || fail "no program $program"
done

# Each with plain rustc: no cache of Cargo's is needed.
mkdir -p "$made" || exit 1
for name in second compare; do
    rustc -O --edition 2021 -o "$made/$name" "$name/src/main.rs" || fail "$name does not build"
done

# The second program's own tests: the scope document's sums and its worked example.
if [ -z "$1" ]; then
    rustc -O --edition 2021 --test -o "$made/tests" second/src/main.rs || fail "the second program's tests do not build"
    "$made/tests" -q >"$made/tests.log" 2>&1 || { cat "$made/tests.log" >&2; fail "the second program fails its own tests"; }
fi

# shellcheck source=tools/x86.sh
. tools/x86.sh
words=$(x86words) || exit 1
# A program that hangs differs, too.
command -v timeout >/dev/null 2>&1 && words="timeout 300 $words"

# compare WORD..: with the engine's program and, if any, the seeds
compare() {
    "$made/compare" "$@" --second "$made/second" --keep "$made/differences"
}
compare ${1:+--seeds "0..$(($1 + 1))"} --engine "$words $session" || exit
compare ${1:+--seeds "1..$(($1 + 1))"} --looks "$words $looks" || exit
compare ${1:+--seeds "1..$(($1 + 1))"} --rewrite "$words $rewrite" || exit
compare ${1:+--seeds "1..$(($1 + 1))"} --clearing "$words $clearing"
