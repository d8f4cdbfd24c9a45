#!/bin/sh
# release.sh [DIR]: make release. Writes DIR (release/): the programs, what is proved of them, and a MANIFEST that says of which tree they are.
# It builds nothing: only what the gate built and passed on this very commit goes out, and the same commit gives the same bytes.
cd "$(dirname "$0")/.." || exit 1
. tools/facts.sh
out=${1:-release}
out=${out%/}
fail() {
    echo "release: $*" >&2
    exit 1
}

changed=$(changes "$out")
[ -z "$changed" ] || fail "the tree is not clean: $(echo "$changed" | head -n 1)"
passed || fail "run make test first: the gate has not passed on this commit"
[ "$kit" = "$(cat kit.txt)" ] || fail "the gate was run by the kit '$kit', and kit.txt names '$(cat kit.txt)'"
# What is there is only replaced if it is a release.
[ ! -e "$out" ] || [ -z "$(ls -A "$out")" ] || grep -q '^commit ' "$out/MANIFEST" 2>/dev/null || fail "$out is there and is no release: name another DIR"

# Written beside it and moved, so that half a release is never there.
mkdir -p "$(dirname "$out")" || exit 1
new=$(mktemp -d "$(dirname "$out")/.release.XXXXXX") || exit 1
trap 'rm -rf "$new"' EXIT
trap 'exit 1' HUP INT TERM
mkdir "$new/bin" || exit 1
for name in $programs; do
    cp "target/bin/$name" "$new/bin/$name" || exit 1
    # A check since then, of another tree, would have left another program.
    grep -qx "$(sum <"$new/bin/$name")  $name" target/gate || fail "target/bin/$name is not what the gate built: run make test again"
done
for name in $documents; do cp "docs/$name" "$new/$name" || exit 1; done
{ facts && echo "gate $last" && held "$new"; } >"$new/MANIFEST" || exit 1

# Modes and times too come from the commit, so that an archive of the folder has no others.
find "$new" -type f -exec chmod 644 {} + || exit 1
chmod 755 "$new" "$new/bin" "$new"/bin/* || exit 1
time=$(TZ=UTC0 git log -1 --format=%cd --date=format-local:%Y%m%d%H%M.%S) || exit 1
find "$new" -exec env TZ=UTC0 touch -t "$time" {} + || exit 1
rm -rf "$out" || exit 1
mv "$new" "$out" || exit 1
echo "release: $out, of commit $(commit)"
