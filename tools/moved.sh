#!/bin/sh
# moved.sh FROM: make moved FROM=commit. Prints the skeleton of an entry of docs/CHANGES.md: for each crate which definitions, laws, public promises
# and proofs differ between that commit and this one, by name (taken: as another crate had it), and what the proof of each crate takes in rt ci --anew,
# from nothing, one crate at a time: a whole tree may take hours. What differs is its own text: neither layout, comments and lines of use, nor what it
# cites. SECONDS_TOO=0 leaves the times out; CRATES="lists terms" looks at these alone. The times of a commit of another kit are -.
cd "$(dirname "$0")/.." || exit 1
. tools/facts.sh
say() {
    echo "moved: $*" >&2
}
fail() {
    say "$@"
    exit 1
}
[ -n "$1" ] || fail "from which commit? make moved FROM=commit"
from=$(git rev-parse --verify -q "$1^{commit}") || fail "there is no commit $1"
now=$(git rev-parse --verify -q HEAD) || fail "there is no commit here"
for crate in $CRATES; do crates | grep -qx -e "$crate" || fail "there is no crate $crate here"; done
[ -z "$(changes)" ] || say "the tree is not clean: what is not committed is left out"
dir=$(mktemp -d) || exit 1
trap 'rm -rf "$dir"' EXIT
trap 'exit 1' HUP INT TERM
for at in from now; do
    mkdir "$dir/$at" || exit 1
    eval "git archive \"\$$at\"" | tar -x -C "$dir/$at" || fail "commit $at can't be laid out"
done

# stated CRATE: a line `kind name text` for each name of its specs, and of the lemmas right in proofs/, by tabs. What is an abbreviation, can be
# unfolded, or is a record or data is a definition, whole; of other names what is stated is a law, and how it is shown a proof. What a module binds
# belongs to each name in it. A file of proofs/ and one of specs/ of its name are one: a theorem goes from one to the other and is the same.
stated() {
    (cd "crates/$1" 2>/dev/null && find specs proofs -name '*.antt' ! -path 'proofs/*/*' -exec awk '
        function put(kind, text) { said[kind "\t" file "." name] = said[kind "\t" file "." name] " " text }
        FNR == 1 { file = FILENAME; sub(/^[a-z]*\//, "", file); sub(/\.antt$/, "", file); gsub("/", ".", file); depth = 0; kind = ""; heading = 0; split("", kinds) }
        /^ *(--.*)?$/ { next }
        { match($0, /^ */); indent = RLENGTH; text = substr($0, indent + 1); gsub(/ +/, " ", text) }
        !heading { while (depth && indent < body[depth]) depth-- }
        !heading && indent == body[depth] && text ~ /^module / { heading = 1; body[++depth] = indent + 2; bound[depth] = bound[depth - 1]; kind = "" }
        heading { bound[depth] = bound[depth] " " text; heading = text !~ /(^| )where$/; next }
        indent > body[depth] { if (kind) put(kind, text); next }
        text ~ /^(pub )?(use|mod) / || text ~ /^infix/ { kind = ""; next }
        kind && text ~ /^unfolding / { if (kind == "law") kind = "shown"; put(kind, text); next }
        text ~ /^((abbrev|unfoldable|pub) )*((record|data) .*|[^ ]+ :( .*)?)$/ {
            kind = text ~ /^(pub )?(record|data) / || text ~ /^(abbrev|unfoldable) / ? "definition" : "law"
            name = text
            while (sub(/^(abbrev|unfoldable|pub|record|data) /, "", name)) continue
            sub(/ .*/, "", name)
            kinds[name] = kind
            put(kind, bound[depth] " " text)
            next
        }
        {
            first = text
            sub(/ .*/, "", first)
            if (first in kinds) { name = first; kind = kinds[name] }
            if (kind == "law") kind = "shown"
            if (kind) put(kind, text)
        }
        END { for (key in said) print key "\t" said[key] }' {} + 2>/dev/null)
}
# The public functions of a crate, and its proofs by function.
promised() {
    [ ! -d "crates/$1/src" ] || promises "$1" | awk '{
        owner = name = $0
        sub(/ ?pub .*/, "", owner)
        sub(/^impl(<[^>]*>)? /, "", owner)
        sub(/^.*pub [^(]*fn /, "", name)
        sub(/[<(].*/, "", name)
        print "promise\t" (owner ? owner "::" : "") name "\t" $0
    }'
}
proved() {
    [ ! -d "crates/$1/proofs" ] || (cd "crates/$1/proofs" && find . -path './*/*' -name '*.antt' -exec awk '
        FNR == 1 { name = substr(FILENAME, 3); sub(/(\/Proof)?\.antt$/, "", name); gsub("/", "::", name); said[name] = "" }
        /^ *(--.*)?$/ || /^use / { next }
        { gsub(/ +/, " "); said[name] = said[name] " " $0 }
        END { for (name in said) print "proof\t" name "\t" said[name] }' {} +)
}
# asked: the crates to look at in a tree, each behind those that it uses
asked() {
    # shellcheck disable=SC2046
    below $(crates) | grep -xF -e "$(echo "${CRATES:-$(crates)}" | tr -s ' ' '\n')"
}
# names TREE: all of these, each line with its crate before it
names() (
    cd "$dir/$1" || exit 1
    for crate in $(asked); do
        { stated "$crate"; promised "$crate"; proved "$crate"; } | sort | sed "s/^/$crate	/"
    done
)

# seconds TREE COMMIT: a line `crate seconds` for each crate that rt proves there, from nothing
seconds() (
    cd "$dir/$1" || exit 1
    [ -n "$(asked)" ] || exit 0
    # of a copy, in which nothing is to be refused: an edit's check is no part of a crate's proof
    rm -rf crates/*/must-fail
    # shellcheck disable=SC2046
    all=$(below $(asked) | wc -l)
    say "$2: proving $((all)) crates, which may take long"
    # rt gives no times, but a line as soon as a crate is proved, and as soon as its tests are: one at a time (RT_JOBS), what is between two lines is
    # what the later one took.
    # shellcheck disable=SC2046
    { RT_JOBS=1 rt ci --anew ${CRATES:+$(asked)} 2>&1 </dev/null; echo $? >"$dir/status"; } | {
        n=0
        at=$(date +%s)
        while IFS= read -r line; do
            case $line in 'rt: '*' proved' | 'rt: '*'NOT PROVED'*) ;; *) continue ;; esac
            took=$(($(date +%s) - at))
            at=$((at + took))
            line=${line#rt: }
            case $line in
            *': its tests are proved') ;;
            *' proved')
                n=$((n + 1))
                say "$2: $line ($took s), $n of $((all))"
                echo "${line% proved} $took"
                ;;
            *) say "$2: $line" ;;
            esac
        done
    }
    [ "$(cat "$dir/status")" -eq 0 ] || say "$2: not all is proved: a time that is missing is -"
)

for at in from now; do
    (cd "$dir/$at" && asked) >"$dir/$at.crates"
    names "$at" >"$dir/$at.names"
    : >"$dir/$at.seconds"
done
if [ "$SECONDS_TOO" != 0 ]; then
    command -v rt >/dev/null 2>&1 || fail "no rt on the PATH: SECONDS_TOO=0 leaves the times out"
    seconds from "$1" >"$dir/from.seconds"
    seconds now HEAD >"$dir/now.seconds"
fi

printf '## %.7s..%.7s\n\n' "$from" "$now"
cmp -s "$dir/from/kit.txt" "$dir/now/kit.txt" || printf 'The kit: %s before, %s now.\n\n' "$(cat "$dir/from/kit.txt")" "$(cat "$dir/now/kit.txt")"
awk -F '\t' -v timed="$SECONDS_TOO" -v machine="$(uname -m)" '
    function differs(crate, kind, how, name) {
        moved[crate]
        count[crate, kind, how]++
        if (!((crate, kind, how, name) in named)) list[crate, kind, how] = list[crate, kind, how] (list[crate, kind, how] ? ", `" : "`") name "`"
        named[crate, kind, how, name]
    }
    # where a name stands: all before its last part
    function place(name) { sub(/(\.|::)?[^.:]*$/, "", name); return name ? name : "the top" }
    # each way in which a crate'"'"'s names of a kind differ: how many, or which
    function ways(crate, kind, by_name,    i, said) {
        for (i = 1; i <= 5; i++) if ((crate, kind, how[i]) in count)
            said = said (said ? ", " : "") (by_name ? how[i] " " list[crate, kind, how[i]] : count[crate, kind, how[i]] " " how[i])
        return said
    }
    function time(part, crate) { return (part, crate) in seconds ? seconds[part, crate] : "-" }
    part ~ /crates$/ { in_tree[part, $1]; if (!($1 in known)) { known[$1]; crates[++n] = $1 } next }
    part ~ /seconds$/ { split($0, word, " "); seconds[part, word[1]] = word[2]; next }
    { key = $1 FS $2 FS $3; if (!(key in key_known)) { key_known[key]; keys[++m] = key } }
    part == "from names" { old[key] = old[key] $4; next }
    { new[key] = new[key] $4 }
    END {
        split("added gone changed elsewhere taken", how, " ")
        split("definition law promise proof", kinds, " ")
        split("from now", tree, " ")
        for (i = 1; i <= m; i++) if (!(keys[i] in new)) { split(keys[i], k, FS); left[k[1], k[2], old[keys[i]]] = left[k[2], old[keys[i]]] = keys[i] }
        for (i = 1; i <= m; i++) {
            key = keys[i]
            split(key, k, FS)
            # how a law is shown has a line of its own only where the law is the same
            law = k[1] FS "law" FS k[3]
            if (k[2] == "shown") { if (old[law] == new[law] && old[key] != new[key]) differs(k[1], "proof", "changed", "specs " k[3]); continue }
            if (!(key in new)) continue
            if (!(key in old) && (k[1], k[2], new[key]) in left) {
                was = left[k[1], k[2], new[key]]
                split(was, w, FS)
                delete left[k[1], k[2], new[key]]
                away[was]
                differs(k[1], k[2], "elsewhere", place(w[3]) "` to `" place(k[3]))
            # .. and one that another crate had
            } else if (!(key in old) && k[2] != "promise" && (k[2], new[key]) in left && !(left[k[2], new[key]] in away)) {
                was = left[k[2], new[key]]
                split(was, w, FS)
                away[was]
                differs(w[1], k[2], "elsewhere", place(w[3]) "` to `" k[1])
                differs(k[1], k[2], "taken", place(k[3]) "` from `" w[1])
            } else if (!(key in old)) differs(k[1], k[2], "added", k[3])
            else if (old[key] != new[key]) differs(k[1], k[2], "changed", k[3])
        }
        for (i = 1; i <= m; i++) if (!(keys[i] in new) && !(keys[i] in away)) { split(keys[i], k, FS); if (k[2] != "shown") differs(k[1], k[2], "gone", k[3]) }

        timed = timed != "0"
        for (i = 1; i <= n; i++) {
            crate = crates[i]
            times = timed ? " " time("from seconds", crate) " | " time("now seconds", crate) " |" : ""
            for (j = 1; j <= 2; j++) if ((tree[j] " crates", crate) in in_tree) {
                if (time(tree[j] " seconds", crate) == "-") lacks[j]
                whole[j] += time(tree[j] " seconds", crate)
            }
            note = !(("from crates", crate) in in_tree) ? ", new" : !(("now crates", crate) in in_tree) ? ", gone" : ""
            if (!(crate in moved) && !note) {
                still = still (still ? ", `" : "`") crate "`" (timed ? " (" time("from seconds", crate) ", " time("now seconds", crate) ")" : "")
                continue
            }
            row = row "| `" crate "`" note " |"
            said = ""
            for (j = 1; j <= 4; j++) {
                which = ways(crate, kinds[j])
                row = row (which ? " " which : "") " |"
                which = ways(crate, kinds[j], 1)
                if (which) said = said (said ? "; " : "") kinds[j] "s " which
            }
            row = row times "\n"
            if (said) names = names "- `" crate "`: " said "\n"
        }
        if (row) {
            print "| crate | definitions | laws | promises | proofs |" (timed ? " seconds before | now |" : "")
            print "|---|---|---|---|---|" (timed ? "---|---|" : "")
            printf "%s", row
            if (timed) print "| all | | | | | " (1 in lacks ? "-" : whole[1]) " | " (2 in lacks ? "-" : whole[2]) " |"
            print ""
            printf "%s\n", names
        }
        if (still) print "Nothing moved in " still "."
        if (timed) print (still ? "\n" : "") "The seconds are those of each crate in `rt ci --anew`, from nothing and one at a time, without tests and edits, on one " machine " machine."
    }' part='from crates' "$dir/from.crates" part='now crates' "$dir/now.crates" part='from seconds' "$dir/from.seconds" part='now seconds' "$dir/now.seconds" \
    part='from names' "$dir/from.names" part='now names' "$dir/now.names"
