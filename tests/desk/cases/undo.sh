# Steps back: each undo goes one further, and to a number of one's own choice.
printf 'gate\nallow\ncell\nallow\n' >plant.txt
foldplover undo plant.txt
quietly apply plant.txt
foldplover undo plant.txt
quietly add plant.txt 2 deny dport 2
quietly add plant.txt 2 deny dport 3
quietly add plant.txt 2 deny dport 4
cp plant.txt four.txt
foldplover undo plant.txt
run cat plant.txt
foldplover undo plant.txt
run cat plant.txt
foldplover undo plant.txt
run cat plant.txt
foldplover undo plant.txt
foldplover log plant.txt
# Forth again, and from there back to what was before that.
foldplover undo plant.txt 4
run cmp plant.txt four.txt
foldplover undo plant.txt
run cat plant.txt
# An edit after an undo: the undo goes back to what the edit was made on.
quietly add plant.txt 2 deny dport 9
quietly undo plant.txt
run cat plant.txt
run cmp plant.txt plant.d/current/policy.txt
foldplover log plant.txt
(cd plant.d/current/ && run sha256sum -c --quiet sum)
