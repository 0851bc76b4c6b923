# Texts that are moved. check writes nothing.
cp "$root"/examples/{plant,dairy}.txt .
before=$(tree)
foldplover check plant.txt
foldplover check dairy.txt
unchanged "$before"
# The smallest; a name with blanks in it, in another folder.
mkdir -p 'line 7'
printf 'gate\nallow\ncell\ndeny\n' >'line 7/plant.txt'
foldplover check 'line 7/plant.txt'
foldplover apply 'line 7/plant.txt'
run ls 'line 7' 'line 7/plant.d'
