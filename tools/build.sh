#!/bin/sh
# build.sh PROGRAM..: each that is not there or older than its crates is proved and built, and stands at target/bin/PROGRAM then. What rt says goes
# to standard error. build.sh --stale PROGRAM builds nothing: the status is 0 where it would. (The gate takes the programs that rt ci built instead.)
cd "$(dirname "$0")/.." || exit 1
# What is in the crates' folders, of which must-fail/ is no part of the program, nor out/, which rt makes.
stale() {
    # shellcheck disable=SC2046
    [ ! -x "target/bin/$1" ] ||
        (. tools/facts.sh && [ -n "$(find crates.txt $(below "$1" | sed 's,.*,crates/&/*,') \( -name must-fail -o -name out \) -prune -o -newer "target/bin/$1" -print)" ])
}
if [ "$1" = --stale ]; then
    stale "$2"
    exit
fi
mkdir -p target/bin || exit 1
for program in "$@"; do
    stale "$program" || continue
    # rt builds what it runs: it is run once, on no input, and what it prints is nobody's. It begins with what checks on this machine kept, else from nothing.
    (cd "crates/$program" && rt run </dev/null >/dev/null) || {
        echo "build: $program can't be built: rt run in crates/$program" >&2
        exit 1
    }
    cp "crates/$program/out/$program" "target/bin/$program" || exit 1
done
