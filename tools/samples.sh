#!/bin/sh
# Runs every session file of samples/, and by the clearing program those of samples/clearing/ (K5), and holds what is printed to its .out,
# byte by byte; has each rewritten (K1); and holds the files to tools/samples.py, which makes them and their README.
cd "$(dirname "$0")/.." || exit 1
for name in replay rewrite clearing; do
    [ -x "target/bin/$name" ] || { echo "samples: no program target/bin/$name: sh tools/build.sh $name builds it"; exit 1; }
done
# shellcheck source=tools/x86.sh
. tools/x86.sh
dir=$(mktemp -d) || exit 1
trap 'rm -rf "$dir"' EXIT

# same NAME STORED: what was printed is what is stored
same() {
    cmp -s "$2" "$dir/printed" && return
    echo "samples: $1: first difference: $(diff "$2" "$dir/printed" | sed -n '2{s/^</stored/;s/^>/printed/;p;}')"
    return 1
}
# held PROGRAM NAME STORED: what standard input prints is what is stored
held() {
    x86 "target/bin/$1" >"$dir/printed" || { echo "samples: $2: the program failed"; return 1; }
    same "$2" "$3"
}

# rewritten NAME: a good file comes out as it is (K1), any other one as what stands before its first record that is faulty or out of range.
rewritten() {
    x86 target/bin/rewrite <"samples/$1.session" >"$dir/rewritten" 2>/dev/null
    size=$(wc -c <"$dir/rewritten")
    whole=$(wc -c <"samples/$1.session")
    head -c "$size" "samples/$1.session" | cmp -s - "$dir/rewritten" || { echo "samples: $1 is rewritten as other bytes"; return 1; }
    # of a longer file, rewrite takes the first 65,536 bytes
    if [ "$whole" -le 65536 ] && ! grep -qE '^[0-9]+ (fault|[a-z]+) 1( |$)' "samples/$1.out" && [ "$size" -ne "$whole" ]; then
        echo "samples: $1 is not rewritten whole"
        return 1
    fi
}

bad=0
count=0
for file in samples/*.session samples/clearing/*.session; do
    name=${file#samples/}
    name=${name%.session}
    program=replay
    [ "${name#clearing/}" = "$name" ] || program=clearing
    [ -f "samples/$name.out" ] || { echo "samples: $name has no .out"; bad=1; continue; }
    held $program "$name" "samples/$name.out" <"$file" || bad=1
    rewritten "$name" || bad=1
    count=$((count + 1))
done
for file in samples/*.out samples/clearing/*.out; do
    [ -f "${file%.out}.session" ] || { echo "samples: ${file#samples/} has no .session"; bad=1; }
done

# In pieces, so that reads are cut anywhere: each by a process of its own, which takes longer than the program does.
pieces() {
    size=$(wc -c <"$2")
    at=0
    while [ $((at * $1)) -lt "$size" ]; do
        dd bs="$1" skip=$at count=1 if="$2" 2>/dev/null
        at=$((at + 1))
    done
}
pieces 701 samples/boundaries.session | held replay 'boundaries in pieces' samples/boundaries.out || bad=1
# A first read that ends inside the second record's header, whatever the machine's pace.
{ dd bs=26 count=1 2>/dev/null; sleep 1; cat; } <samples/worked.session | held replay 'worked in two pieces' samples/worked.out || bad=1

# A million numbers, by orders and by quotes: made here, since they are too long to be stored.
if command -v python3 >/dev/null 2>&1; then
    # last NAME LINE..: the last lines printed for it
    last() {
        name=$1
        shift
        printf '%s\n' "$@" >"$dir/stored"
        python3 tools/samples.py "$name" | x86 target/bin/replay | tail -n $# >"$dir/printed"
        same "$name" "$dir/stored"
    }
    last refusal_9 '1999488 order 0 999999' '1999489 quote 9 0 0' '1999490 order 0 1000000' '1999491 order 9 0' '1999492 quote 9 0 0' \
        '1999493 delete 0' '1999494 order 9 0' '1999495 quote 9 0 0' 'end 1999495' || bad=1
    last refusal_9_two_left '500001 quote 0 999999 1000000' '500002 quote 9 0 0' '500003 order 9 0' '500004 delete 0' '500005 quote 9 0 0' \
        '500006 order 9 0' '500007 auction 0 2 0 0 0' '500008 delete 0' 'end 500008' || bad=1
    # The stored files are what the generator makes.
    { mkdir "$dir/made" && python3 tools/samples.py --into "$dir/made"; } || { echo "samples: tools/samples.py makes no files"; exit 1; }
    for name in $({ (cd "$dir/made" && find . -type f) && (cd samples && find . -name '*.session'); } | sed 's,^\./,,' | sort -u); do
        cmp -s "$dir/made/$name" "samples/$name" && continue
        if [ ! -f "$dir/made/$name" ]; then
            echo "samples: $name is stored, and tools/samples.py doesn't make it"
        elif [ ! -f "samples/$name" ]; then
            echo "samples: $name is not stored, and tools/samples.py makes it"
        else
            echo "samples: $name is not what tools/samples.py makes"
        fi
        bad=1
    done
else
    echo "samples: no python3 on the PATH: refusal_9 and refusal_9_two_left are not run, and the files are not made again"
fi

[ $bad -ne 0 ] || echo "samples: $count files as stored, and rewritten"
exit $bad
