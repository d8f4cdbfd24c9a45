#!/bin/sh
# That a release can't go stale, with no proof: one commit released twice, where all that must not matter differs, and then what must be named.
cd "$(dirname "$0")/.." || exit 1
fail() {
    echo "release-test: $*" >&2
    exit 1
}
command -v git >/dev/null || fail "no git on the PATH"
programs=$(. tools/facts.sh && echo "$programs")
for name in $programs; do
    [ -f "target/bin/$name" ] || fail "no target/bin/$name: run sh tools/build.sh $name"
done
dir=$(mktemp -d) || exit 1
trap 'rm -rf "$dir"' EXIT
# Neither the repository that a hook is run for nor the settings of the user or the machine.
# shellcheck disable=SC2046
unset GIT_CONFIG_GLOBAL $(git rev-parse --local-env-vars)
export HOME="$dir" XDG_CONFIG_HOME="$dir" GIT_CONFIG_NOSYSTEM=1
export GIT_AUTHOR_NAME=test GIT_AUTHOR_EMAIL=test GIT_COMMITTER_NAME=test GIT_COMMITTER_EMAIL=test

# The tree as it is here, committed or not, as a commit in two places, each with the programs that are built and the record of a gate.
all=$dir/all
git init -q --bare "$all" && git --git-dir="$all" --work-tree=. add -A && git --git-dir="$all" --work-tree=. commit -q -m test || exit 1
here=$dir/here
there=$dir/another/place/there
git clone -q "$all" "$here" && (umask 077 && git clone -q -c core.autocrlf=true "$all" "$there") || exit 1
gated() {
    mkdir -p "$1/target/bin" || return
    for name in $programs; do cp "target/bin/$name" "$1/target/bin" || return; done
    (cd "$1" && . tools/facts.sh && record clean '1 passed, 0 failed' "$(cat kit.txt)" >target/gate)
}
gated "$here" && gated "$there" || exit 1

one=$dir/one
two=$dir/two
sh "$here/tools/release.sh" "$one" >"$dir/said" || fail "no release"
mkdir "$dir/bin"
for name in date hostname uname whoami id; do
    printf '#!/bin/sh\necho 915148800\n' >"$dir/bin/$name" && chmod 755 "$dir/bin/$name" || exit 1
done
find "$there" -exec touch -d 2001-02-03T04:05:06 {} + || exit 1
(
    umask 077
    PATH="$dir/bin:$PATH" TZ=Asia/Tokyo LANG=tr_TR.UTF-8 LC_ALL=C.UTF-8 SOURCE_DATE_EPOCH=915148800 USER=another LOGNAME=another \
        sh "$there/tools/release.sh" "$two" >"$dir/said"
) || fail "no second release"
diff -r "$one" "$two" || fail "one commit, and two releases that differ"
for name in one two; do (cd "$dir/$name" && find . -exec stat -c '%n %a %Y' {} + | sort >"$dir/$name.list"); done
diff "$dir/one.list" "$dir/two.list" || fail "one commit, and two releases whose files have other modes or times"

# told STATUS LINE..: what verify says of the first release in the tree `there`, and nothing else.
told() {
    status=$1
    shift
    printf 'verify: %s\n' "$@" >"$dir/expected"
    sh "$there/tools/verify.sh" "$one" >"$dir/said" 2>&1
    { [ $? -eq "$status" ] && diff "$dir/expected" "$dir/said"; } || fail "verify: expected (<), and said (>)"
}
# refused LINE: release says this in the tree `there`, and writes nothing.
refused() {
    sh "$there/tools/release.sh" "$dir/none" >"$dir/said" 2>&1 && fail "a release that must be refused: $1"
    { [ "$(cat "$dir/said")" = "release: $1" ] && [ ! -e "$dir/none" ]; } || fail "release: expected '$1', and said '$(cat "$dir/said")'"
}
told 0 "$one is this tree's release"

# Another program: in the release, and where the next one would take it.
cp "$one/bin/replay" "$dir/replay" && echo >>"$one/bin/replay" || exit 1
told 1 'binary replay differs from the manifest'
cp "$dir/replay" "$one/bin/replay"
echo >>"$there/target/bin/replay"
refused 'target/bin/replay is not what the gate built: run make test again'

# The chain with its highest and lowest exchanged, uncommitted with the time it had, and committed: the release is now an old one.
rule=crates/price/specs/Chain.antt
sed '/^preferred true /s/leb q p/leb p q/' "$here/$rule" >"$there/$rule" && touch -d 2001-02-03T04:05:06 "$there/$rule"
cmp -s "$here/$rule" "$there/$rule" && fail "$rule has no more the line that this test edits"
told 1 'the tree is not clean: it is compared as it is' 'crate price: specs differ'
refused "the tree is not clean:  M $rule"
old=$(git -C "$there" rev-parse HEAD)
git -C "$there" commit -q -a -m edit || exit 1
told 1 "the gate has not passed here on this commit: its line, and what it built, are the manifest's word" \
    "manifest names commit $old, the tree is $(git -C "$there" rev-parse HEAD)" 'crate price: specs differ'
refused 'run make test first: the gate has not passed on this commit'
echo 'release: the same bytes twice, and a changed module is named'
