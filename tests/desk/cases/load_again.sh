# A load that fails at the second filter, once the plant is moved.
cp "$root/examples/dairy.txt" .
quietly apply dairy.txt
printf '#!/bin/sh\n[ "$1" != "$2" ]\n' >fails_for
chmod +x fails_for
quietly load dairy.txt --with true
quietly add dairy.txt 5 deny dport 23
foldplover load dairy.txt --with './fails_for gate'
foldplover load dairy.txt --with './fails_for cell' --back
foldplover load dairy.txt --with --back
foldplover load dairy.txt --with ''
echo '0 1 2' >x
foldplover readings x --earlier same --later same
# Nothing is written over what is read.
cp dairy.txt before.txt
foldplover order dairy.txt -o ./dairy.txt
foldplover packets x -o x
foldplover readings x --earlier x --later y
foldplover readings x --earlier y --later x
foldplover report dairy.txt /dev/null - - --html dairy.txt
run cmp dairy.txt before.txt
mkdir out
ln -s ../dairy.txt out/cell.list
foldplover lists dairy.txt -o out
run cmp dairy.txt before.txt
foldplover readings x --earlier ./e --later e
foldplover readings x --earlier e --later none/l
foldplover readings x --earlier - --later l
foldplover report dairy.txt /dev/null - - --html -
run ls
# A write-protected file stays.
chmod 444 before.txt
foldplover order dairy.txt -o before.txt
foldplover order dairy.txt -o dairy.d/0001/cell
