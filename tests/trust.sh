#!/bin/sh
# Holds docs/TRUST.md to the files: each theorem, a type of specs/ whose name ends in Theorem, is named there and has one value in
# proofs/ and one only; the page's table lists every file of specs/ but Lib and Steps; no file that it lists and no contract of the
# C surface uses a Steps; and no definition and no contract takes anything from proofs/.
set -eu
cd "$(dirname "$0")/.."
faults=0
fault() {
    echo "trust: $1"
    faults=1
}

theorems=$(grep -hoE '^((abbrev|unfoldable) )?pub ((record|data) )?[A-Za-z0-9]*Theorem ' crates/*/specs/*.antt | grep -oE '[A-Za-z0-9]*Theorem')
[ -n "$theorems" ] || fault 'no theorem in specs/'
for theorem in $theorems; do
    values=$(find crates/*/proofs -name '*.antt' -exec grep -hE "^ *pub [A-Za-z0-9_-]+ : $theorem\$" {} + | wc -l)
    [ "$values" = 1 ] || fault "$theorem has $values values in proofs/"
    grep -q "\`$theorem\`" docs/TRUST.md || fault "$theorem is not named"
done

# The table's second column: `crate/File`, and behind it `File`s of the same crate.
listed=$(sed -n '/^| [0-9]* | `/p' docs/TRUST.md | cut -d '|' -f 3 | grep -oE '`[A-Za-z/]+`' | tr -d '`' |
    awk -F / '{ if (NF == 2) crate = $1; print "crates/" crate "/specs/" $NF ".antt" }' | sort)
there=$(find crates/*/specs -name '*.antt' ! -name Lib.antt ! -name Steps.antt | sort)
[ "$listed" = "$there" ] || fault 'its table and the files of specs/ differ'

for file in $there crates/foldplover/src/*.rt crates/foldplover_c/src/*.rt; do
    if grep -qE 'use Rattle.*\.specs\.Steps' "$file"; then fault "$file uses a Steps"; fi
done
# The logic's definition `sets` is the one name that the standard library hands on from its proofs/.
for file in crates/*/specs/*.antt $(find crates/*/src -name '*.rt'); do
    if sed '/use Rattle\.std\.proofs\.lemmas\.List\.Edits\.{sets};*$/d' "$file" | grep -qE 'use Rattle[^ ]*\.proofs\.'; then
        fault "$file takes something from proofs/"
    fi
done
[ "$faults" = 0 ]
echo "trust: $(echo "$theorems" | wc -w) theorems, $(echo "$there" | wc -w) files to read"
