# What a command that was cut off left behind is named and not used: a folder that has no number yet, a number that is not in the row.
cp "$root/examples/dairy.txt" .
quietly apply dairy.txt
cp -a dairy.d/0001 dairy.d/new-123
foldplover log dairy.txt
foldplover diff dairy.txt
foldplover apply dairy.txt
cp -a dairy.d/0001 dairy.d/0002
: >dairy.d/notes
foldplover log dairy.txt
# The next number is behind the one that is left over.
foldplover add dairy.txt 5 deny dport 23 proto udp
foldplover log dairy.txt
foldplover undo dairy.txt
foldplover undo dairy.txt 2
run ls dairy.d dairy.d/new-123
# An empty folder with the next number.
mkdir dairy.d/0005
foldplover set dairy.txt 5 deny destination 0-30 protocol tcp
foldplover log dairy.txt
