# What add and set are given has to be a rule.
cp "$root/examples/dairy.txt" .
quietly apply dairy.txt
before=$(tree)
foldplover set dairy.txt 5 '# gone'
foldplover set dairy.txt 5 'name x 1.2.3.4'
foldplover add dairy.txt 5 '# x'
foldplover add dairy.txt 5 'service x tcp 80'
foldplover add dairy.txt 5 @x
foldplover add dairy.txt 5 $'deny dport 5 # \e[31mred'
foldplover add dairy.txt 05 deny
foldplover add dairy.txt +5 deny
unchanged "$before"
# A label that another line has.
quietly add dairy.txt 5 deny dport 23 @shells
before=$(tree)
foldplover add dairy.txt 3 deny dport 22 @shells
foldplover add dairy.txt 9 deny dport 22 @shells
foldplover set dairy.txt 6 deny @shells
unchanged "$before"
quietly set dairy.txt @shells deny dport 22,23 @shells
# Only looked at.
before=$(tree)
foldplover add dairy.txt @shells deny dport 3389 --try
foldplover set dairy.txt @shells deny dport 22,23 --try
foldplover del dairy.txt @shells --try
foldplover undo dairy.txt --try
unchanged "$before"
