# One byte changed in each file of the current generation: every command that opens it says which file, and does nothing.
cp "$root/examples/dairy.txt" first.txt
cp first.txt dairy.txt
quietly apply dairy.txt
: >none
for file in policy.txt pair gate cell; do
    cp -a dairy.d kept
    changed "dairy.d/0001/$file" 20
    before=$(tree)
    echo "# $file"
    foldplover diff dairy.txt
    foldplover lists dairy.txt -o out
    foldplover log dairy.txt
    unchanged "$before"
    rm -r dairy.d
    mv kept dairy.d
done
# Every command that opens it, for one of them.
cp -a dairy.d kept
changed dairy.d/0001/cell 20
before=$(tree)
foldplover apply dairy.txt
foldplover add dairy.txt 5 deny dport 23
foldplover set dairy.txt 5 deny
foldplover del dairy.txt 5
foldplover why dairy.txt 10.0.0.1:1 10.0.0.2:2 tcp
foldplover undo dairy.txt
foldplover undo dairy.txt 1
foldplover report dairy.txt none - -
foldplover load dairy.txt --with ./none
unchanged "$before"
rm -r dairy.d
mv kept dairy.d
# The sums themselves: a letter of some of its lines.
for line in 1 3 5 8; do
    echo "# line $line of sum"
    cp -a dairy.d kept
    sed -i "$line s/[a-f]\([^a-f]*\)\$/X\1/" dairy.d/0001/sum
    foldplover lists dairy.txt -o out
    rm -r dairy.d
    mv kept dairy.d
done
# A file that is not there.
for file in policy.txt cell sum; do
    mv "dairy.d/0001/$file" kept
    foldplover lists dairy.txt -o out
    mv kept "dairy.d/0001/$file"
done
foldplover lists dairy.txt -o out
