# Undo of what is not there, and of a text that has changes of its own.
printf 'gate\nallow\ncell\nallow\n' >plant.txt
quietly apply plant.txt
quietly add plant.txt 2 deny dport 2
before=$(tree)
foldplover undo plant.txt 3
foldplover undo plant.txt 0
foldplover undo plant.txt one
unchanged "$before"
echo '# by hand' >>plant.txt
before=$(tree)
foldplover undo plant.txt
foldplover undo plant.txt 1
unchanged "$before"
