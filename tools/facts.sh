# shellcheck shell=sh
# Sourced at the top of the tree: what a release says of it. Nothing here goes by a file's time, the clock, the user or the language.
export LC_ALL=C

# What is released: the programs that only test or measure the engine stay here.
programs='replay clearing'
documents='FORMAT.md STATEMENTS.md TRUST.md'

commit() {
    git rev-parse --verify -q HEAD 2>/dev/null || echo none
}

# changes [FOLDER]: what is here and not as committed, but for a release FOLDER. By an index of its own: git's goes by times and can be told to
# look away. What git is to ignore counts among the crates, since the proofs see it, but for a crate's out/, which rt makes and rt ci puts aside.
changes() (
    case ${1:-/} in /* | ..*) set -- ;; *) set -- ":(exclude,literal)$1" ;; esac
    own=$(mktemp -d) || { echo 'no folder for an index'; exit; }
    trap 'rm -rf "$own"' EXIT
    export GIT_INDEX_FILE="$own/index"
    { git read-tree HEAD && git status --porcelain --untracked-files=all -- . "$@"; } 2>/dev/null || echo 'git finds no commit to hold it to'
    git ls-files --others --ignored --exclude-standard -- crates ':(exclude,glob)crates/*/out/**' 2>/dev/null | sed 's/^/!! /'
)

sum() {
    sha256sum | cut -d ' ' -f 1
}

crates() {
    awk -F: '{ sub(/#.*/, "") } NF > 1 { gsub(/[ \t]/, "", $1); print $1 }' crates.txt | sort
}

# below CRATE..: the crates of the tree that these use, and these, each behind those that it uses.
below() {
    awk -F: -v asked="$*" '
        function take(name,    names, n, i) {
            if (!(name in uses) || name in taken) return
            taken[name]
            n = split(uses[name], names, " ")
            for (i = 1; i <= n; i++) take(names[i])
            print name
        }
        { sub(/#.*/, "") }
        NF > 1 { gsub(/[ \t]/, "", $1); uses[$1] = $2 }
        END { n = split(asked, names, " "); for (i = 1; i <= n; i++) take(names[i]) }' crates.txt
}

# digest CRATE PART: of the paths and the bytes of the files in it.
digest() {
    { [ ! -d "crates/$1/$2" ] || (cd "crates/$1" && find "$2" ! -type d -exec sha256sum {} +); } | sort -k 2 | sum
}

# promises CRATE: each public function's signature with its requires and ensures, on one line, whatever its layout and its place.
promises() {
    find "crates/$1/src" -name '*.rt' -exec awk '
        FNR == 1 || /^}/ { owner = "" }
        /^impl/ { owner = $0; sub(/\{.*/, "", owner) }
        /^ *\/\// { next }
        /^ *pub ([a-z]+ |"C" )*fn / { text = owner; depth = 0; taking = 1 }
        taking {
            for (i = 1; i <= length($0); i++) {
                c = substr($0, i, 1)
                # a brace that opens no clause opens the body
                if (c == "{" && !depth && text !~ /(requires|ensures)( [^ ]+)? *$/) {
                    gsub(/[ \t]+/, " ", text)
                    sub(/ $/, "", text)
                    print text
                    taking = 0
                    break
                }
                depth += (c == "{") - (c == "}")
                text = text c
            }
            text = text " "
        }' {} + | sort
}

# The lines of a manifest that the tree decides.
facts() {
    echo "commit $(commit)"
    echo "kit $(cat kit.txt)"
    for crate in $(crates); do
        for part in src specs proofs; do echo "crate $crate $part $(digest "$crate" "$part")"; done
        echo "crate $crate promises $(promises "$crate" | sum)"
    done
}

# held FOLDER: the lines that the files of a release decide.
held() {
    for name in $programs; do [ ! -f "$1/bin/$name" ] || echo "binary $name $(sum <"$1/bin/$name")"; done
    for name in $documents; do [ ! -f "$1/$name" ] || echo "file $name $(sum <"$1/$name")"; done
}

# record TREE LAST KIT: what target/gate has: the commit, whether the tree was it, rt's last line, the kit, and what was built.
record() {
    commit
    printf '%s\n' "$@"
    (cd target/bin && sha256sum -- *)
}

# Whether the gate passed here on this commit; then `last` is rt's last line, and `kit` the kit that said it.
passed() {
    [ -f target/gate ] || return 1
    # shellcheck disable=SC2034
    { read -r of && read -r tree && read -r last && read -r kit; } <target/gate || return 1
    [ "$of" = "$(commit)" ] && [ "$tree" = clean ] || return 1
    case $last in *' passed, 0 failed') ;; *) return 1 ;; esac
}
