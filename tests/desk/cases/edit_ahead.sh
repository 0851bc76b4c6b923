# A text that was changed by hand: other rules have to be applied first, other remarks go with the edit.
printf 'gate\ndeny to 10.0.7.1 @one\nallow\ncell\nallow\n' >plant.txt
foldplover set plant.txt @one deny to 10.0.7.2
quietly apply plant.txt
sed -i '3i deny to 10.0.7.9' plant.txt
before=$(tree)
foldplover add plant.txt @one deny to 10.0.7.2
foldplover set plant.txt @one deny to 10.0.7.2
foldplover del plant.txt @one
unchanged "$before"
foldplover apply plant.txt
sed -i '3i # by hand' plant.txt
foldplover del plant.txt 4
run cat plant.txt
foldplover log plant.txt
# A text at fault stops an edit too, wherever the fault is.
echo 'alow' >>plant.txt
foldplover del plant.txt @one
