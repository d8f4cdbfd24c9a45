#!/bin/sh
# verify.sh [DIR]: make verify. Holds the release in DIR (release/) to this tree, by digests alone: every line of its MANIFEST anew. Each
# difference has a line that names it, and the status is then 1.
cd "$(dirname "$0")/.." || exit 1
. tools/facts.sh
from=${1:-release}
from=${from%/}
say() {
    echo "verify: $*"
}
[ -d "$from" ] || { say "there is no folder $from"; exit 1; }
[ -f "$from/MANIFEST" ] || { say "file MANIFEST is missing"; exit 1; }
dir=$(mktemp -d) || exit 1
trap 'rm -rf "$dir"' EXIT

# Which files are there.
# shellcheck disable=SC2086
files() {
    { echo MANIFEST; printf 'bin/%s\n' $programs; printf '%s\n' $documents; } | sort >"$dir/asked"
    (cd "$from" && find . ! -type d) | sed 's,^\./,,' | sort >"$dir/there"
    comm -23 "$dir/asked" "$dir/there" | sed 's/.*/file & is missing/'
    comm -13 "$dir/asked" "$dir/there" | sed 's/.*/file & is too many/'
    for name in $documents; do [ ! -f "$from/$name" ] || cmp -s "docs/$name" "$from/$name" || echo "file $name differs from the tree"; done
}

# The gate's line and the programs it built, where it passed on this commit; else there is only the manifest's word for them.
gate() {
    case $line in *' passed, 0 failed') ;; *) echo "manifest names a gate that did not pass: '$line'" ;; esac
    [ -n "$last" ] || return
    [ "$line" = "$last" ] || echo "manifest names the gate '$line', the gate here says '$last'"
    for name in $programs; do
        grep -qx "$(sed -n "s/^binary $name //p" "$from/MANIFEST")  $name" target/gate || echo "binary $name is not what the gate built here"
    done
}

# The manifest against the lines as they are now, a line for each crate.
lines() {
    crates >"$dir/crates"
    sed -n 's/^crate \([^ ]*\) .*/\1/p' "$from/MANIFEST" | sort -u >"$dir/named"
    comm -23 "$dir/crates" "$dir/named" | sed 's/.*/crate & is not in the manifest/'
    comm -13 "$dir/crates" "$dir/named" | sed 's/.*/crate & is not in the tree/'
    awk '
        function ended() {
            if (parts) print "crate " crate ": " substr(parts, 3) " differ"
            parts = ""
        }
        { key = $1 == "kit" ? $1 : substr($0, 1, length($0) - length($NF) - 1); value = substr($0, length(key) + 2) }
        FILENAME == ARGV[1] { said[key] = value; if ($1 == "crate") named[$2]; next }
        $2 != crate { ended(); crate = $2 }
        said[key] == value || $1 == "gate" { next }
        $1 == "commit" { print "manifest names commit " said[key] ", the tree is " value }
        $1 == "kit" { print "manifest names kit " said[key] ", the tree is pinned to " value }
        $1 == "crate" && ($2 in named) { parts = parts ", " $3 }
        $1 == "binary" || $1 == "file" { print key " differs from the manifest" }
        END { ended() }' "$from/MANIFEST" "$dir/now"
}

[ -z "$(changes "$from")" ] || say "the tree is not clean: it is compared as it is"
{ passed && [ "$kit" = "$(cat kit.txt)" ]; } || {
    last=
    say "the gate has not passed here on this commit: its line, and what it built, are the manifest's word"
}
line=$(sed -n 's/^gate //p' "$from/MANIFEST")
{ facts && echo "gate $line" && held "$from"; } >"$dir/now"
{ lines; files; gate; } >"$dir/differences"
# Whatever else there is: no line twice, none in another order, none that no release has.
[ -s "$dir/differences" ] || cmp -s "$from/MANIFEST" "$dir/now" || echo 'manifest has other lines than a release, or in another order' >"$dir/differences"
if [ -s "$dir/differences" ]; then
    sed 's/^/verify: /' "$dir/differences"
    exit 1
fi
say "$from is this tree's release"
