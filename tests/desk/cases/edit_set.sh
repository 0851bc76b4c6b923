# set: label and remark stay unless the rule brings its own; blanks around the words stay.
cat >plant.txt <<'TEXT'
gate
  deny  to 10.0.7.1	@one	 # first # really
deny to 10.0.7.2 # second
deny to 10.0.7.3 @three
@four deny to 10.0.7.4
deny to 10.0.7.5#close
allow
cell
allow
TEXT
cp plant.txt first.txt
quietly apply plant.txt
foldplover set plant.txt @one deny   to 10.1.0.1
foldplover set plant.txt 3 'deny  to  10.1.0.2 @two # another'
foldplover set plant.txt @three 'deny to 10.1.0.3 @drei'
foldplover set plant.txt @four 'deny to 10.1.0.4 # fourth'
foldplover set plant.txt 6 deny to 10.1.0.5
foldplover set plant.txt 9 deny
run diff first.txt plant.txt
run cat -A plant.txt
# The same rule in other words is a generation too, and no difference.
foldplover set plant.txt @one deny destination 10.1.0.1
