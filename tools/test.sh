#!/bin/sh
# make test: the kit's identity, the documents, rt's own gate; then the programs that it built: the samples, the comparison with the second
# program, and that a release can't go stale. rt's last line comes last.
cd "$(dirname "$0")/.." || exit 1
fail() {
    echo "test: $*" >&2
    exit 1
}
# What an earlier run recorded is no word for this one.
[ ! -e target/gate ] || : >target/gate || exit 1

command -v rt >/dev/null 2>&1 || fail "no rt on the PATH: install the Rattle kit that kit.txt names ($(cat kit.txt))"
if [ "$(rt version)" = "$(cat kit.txt)" ]; then
    echo "test: kit $(cat kit.txt)"
else
    echo "test: this machine has the kit '$(rt version)'; the project is pinned to '$(cat kit.txt)'. What follows is that other kit's verdict."
fi

sh tools/statements.sh || fail "docs/STATEMENTS.md names what is not there"
! command -v python3 >/dev/null 2>&1 || python3 tools/wrap.py --check || fail "documents not wrapped alike: run python3 tools/wrap.py"

log=$(mktemp) || exit 1
trap 'rm -f "$log" "$log.began" "$log.status"' EXIT
# A release rests on target/gate: of which commit this run was, and whether the tree was that commit from its beginning to its end.
: >"$log.began"
before=$(. tools/facts.sh && commit && changes)
{ rt ci 2>&1; echo $? >"$log.status"; } | tee "$log"
status=$(cat "$log.status")
[ "$status" -eq 0 ] || exit "$status"
verdict=$(grep -E '^[0-9]+ passed, [0-9]+ failed' "$log" | tail -n 1)

# An edit that can't be applied, compiled or read fails nothing in rt ci, and shows nothing. No more does one that is refused only since a proof
# names what it took away. rt tells each in a line of its own, also where an earlier run tried it.
grep -q '^rt: ok; ' "$log" || fail "rt ci ended well, and has no line 'rt: ok': no word of the must-fail edits"
! grep -E '^rt: ok; .*, [1-9][0-9]* bad|^rt: .*: BAD EDIT: ' "$log" >&2 || fail "must-fail edits that can't be tried, as these lines say"
! grep -E '^rt: must-fail .*\(only because ' "$log" >&2 || fail "must-fail edits refused by what a proof names alone, as these lines say"

# rt ci has put aside what was in the crates' out/ folders, and leaves each program there as it ran it: LLVM's build of what was proved in this
# run or, kept with its sums, in an earlier one of the same files. So it is taken from there, and neither proved nor compiled a second time.
mkdir -p target/bin || exit 1
for main in crates/*/src/main.rt; do
    name=${main#crates/}
    name=${name%/src/main.rt}
    built=crates/$name/out/$name
    [ -n "$(find "$built" -newer "$log.began" 2>/dev/null)" ] || fail "rt ci has left no $built: sh tools/build.sh $name builds it anew, but then the gate has not run it"
    cp "$built" "target/bin/$name" || exit 1
done
sh tools/samples.sh || fail "samples/ holds what the program doesn't print"
ALLOW_NO_RUSTC=1 sh tools/compare.sh || fail "the two programs differ, or a rule never came up"
sh tools/release-test.sh || fail "a release could go stale"
(
    . tools/facts.sh
    tree=changed
    # An edit that was taken back while the crates were proved leaves nothing but its time. (In out/ and by it rt ci changes times itself.)
    if [ "$before" = "$(commit)" ] && [ -z "$(changes)" ] && [ -z "$(find crates.txt crates/*/* -name out -prune -o -newer "$log.began" -print)" ]; then tree=clean; fi
    record "$tree" "$verdict" "$(rt version)" >target/gate
) || fail "no record of this run"
echo "$verdict"
