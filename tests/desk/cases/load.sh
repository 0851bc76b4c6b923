# Lists handed over to a command: the cell's first, the gate's own first on the way back.
export TMPDIR=.
cp "$root/examples/dairy.txt" .
cat >loader <<'SCRIPT'
#!/bin/sh
# Says its words, and of which list the last one is.
echo "loader: $# words: $*"
for list; do :; done
printf 'loader: %s rules\n' $((($(wc -c <"$list") - 2) / 27))
cp "$list" "loaded.$(basename "$list")"
SCRIPT
chmod +x loader
foldplover load dairy.txt --with ./loader
quietly apply dairy.txt
foldplover load dairy.txt --with ./loader
run cmp loaded.cell dairy.d/0001/cell
run cmp loaded.gate dairy.d/0001/gate
foldplover load dairy.txt --back --with ./loader
foldplover show loaded.gate
foldplover show loaded.cell
run ls
# Words of the command's own, and blanks in its name and in the text's.
foldplover load dairy.txt --with './loader -v two  words'
mkdir 'line 7'
cp loader 'line 7/my loader'
cp dairy.txt 'line 7/plant.txt'
quietly apply 'line 7/plant.txt'
foldplover load 'line 7/plant.txt' --with 'line 7/my loader'
# What the filters have is noted.
foldplover log dairy.txt
# Signs of the shell would send the lists elsewhere.
for with in './loader | cat' './loader > out' './loader $x' "./loader '-v'" './loader; true' ' '; do
    foldplover load dairy.txt --with "$with"
done
# What a loader does to its file is its own matter; nobody else loads or changes the plant meanwhile.
printf '#!/bin/sh\necho x >>"$2"\nrm "$2"\n' >takes
printf '#!/bin/sh\n[ "$1" = gate ] || { %s load dairy.txt --with ./loader --back; echo "= $?"; }\n' '"$root/tests/x86" run "$root/target/foldplover"' >twice
chmod +x takes twice
foldplover load dairy.txt --with ./takes
foldplover load dairy.txt --with ./twice
foldplover log dairy.txt
