#!/bin/sh
# Holds docs/STATEMENTS.md to the tree: each row that names a file and names in it must find them there.
# A row is `| ID | file | name, name | .. |`; `open` in place of a file says that the statement is not proved yet.
cd "$(dirname "$0")/.." || exit 1
bad=0
while IFS='|' read -r _ id file names _; do
    id=$(echo "$id" | tr -d ' ')
    file=$(echo "$file" | tr -d ' `')
    case $id in [A-DK][0-9]*) ;; *) continue ;; esac
    [ "$file" != open ] || continue
    [ -f "$file" ] || { echo "statements: $id: no file $file"; bad=1; continue; }
    for name in $(echo "$names" | tr -d '`' | tr ',' ' '); do
        grep -qE "^ *((unfoldable|abbrev|pub) )*((record|data) )?$name( |\$)" "$file" || { echo "statements: $id: no $name in $file"; bad=1; }
    done
    grep -q -- "$id" "$file" || { echo "statements: $file does not carry the id $id"; bad=1; }
done <docs/STATEMENTS.md
exit $bad
