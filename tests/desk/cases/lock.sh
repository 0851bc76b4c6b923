# One command at a time changes a plant; those that only read need not wait.
cp "$root/examples/dairy.txt" .
quietly apply dairy.txt
exec 9>>dairy.d/lock
flock -n 9
before=$(tree)
foldplover apply dairy.txt
foldplover apply dairy.txt --anew
foldplover add dairy.txt 5 deny dport 23
foldplover set dairy.txt 5 deny
foldplover del dairy.txt 5
foldplover undo dairy.txt
foldplover diff dairy.txt
foldplover log dairy.txt
foldplover lists dairy.txt -o out
exec 9>&-
rm -r out
unchanged "$before"
foldplover apply dairy.txt
