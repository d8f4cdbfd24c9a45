#!/bin/sh
# run.sh TARGET PROGRAM [FILE]: make TARGET FILE=FILE. Runs a session file, without FILE standard input. Standard output has what the program
# prints and nothing else.
target=$1
program=$2
file=$3
say() {
    echo "$target: $*" >&2
}
fail() {
    say "$@"
    exit 1
}

if [ -n "$file" ]; then
    [ -e "$file" ] || fail "no such file: $file"
    [ ! -d "$file" ] || fail "not a session file but a directory: $file"
    [ -r "$file" ] || fail "not readable: $file"
    # here, where a relative name still means what the caller meant
    exec <"$file"
fi
cd "$(dirname "$0")/.." || exit 1
command -v rt >/dev/null 2>&1 || fail "no rt on the PATH: install the Rattle kit that kit.txt names ($(cat kit.txt))"

dir=$(mktemp -d) || exit 1
trap 'rm -rf "$dir"' EXIT
built=target/bin/$program
# Minutes of silence would look like a program that hangs: what is being proved, on standard error. A crate that was proved before has no line.
told() {
    while IFS= read -r line; do
        case $line in 'rt: chose --jobs '*' for '*) say "${line##* for }" ;; esac
    done
}
if sh tools/build.sh --stale "$program"; then
    say "$built is not there or older than its crates: they are proved and it is built, which may take some minutes"
    # what stands on standard input is the program's
    { sh tools/build.sh "$program" 2>&1 </dev/null; echo $? >"$dir/status"; } | tee "$dir/log" | told
    [ "$(cat "$dir/status")" -eq 0 ] || {
        tail -n 20 "$dir/log" >&2
        fail "the program can't be built: sh tools/build.sh $program"
    }
    [ -x "$built" ] || fail "all is proved and there is no $built: remove target/ and run this again"
fi

# shellcheck source=tools/x86.sh
. tools/x86.sh
# The program has no exit status of its own: what it says on standard error is that its input or output failed.
x86 "$built" 2>"$dir/said" || { cat "$dir/said" >&2; exit 1; }
[ ! -s "$dir/said" ] || { cat "$dir/said" >&2; exit 1; }
