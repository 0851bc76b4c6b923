# Readings, byte for byte those of the examples.
cp "$root/examples/plant.readings" "$root/tests/report/dairy.readings" .
foldplover readings plant.readings --earlier plant.earlier --later plant.later
run cmp plant.earlier "$root/examples/plant.earlier" | sed "s#$root/##"
run cmp plant.later "$root/examples/plant.later" | sed "s#$root/##"
foldplover readings dairy.readings --earlier dairy.earlier --later dairy.later
run cmp dairy.earlier "$root/tests/report/dairy.earlier" | sed "s#$root/##"
run cmp dairy.later "$root/tests/report/dairy.later" | sed "s#$root/##"
printf '# two\n0 1 2 # first\r\n\n1\t3\t4294967295\n' | foldplover readings - --earlier earlier --later later
run od -An -tx1 earlier
run od -An -tx1 later
# What is no row of readings.
try() {
    printf "$1" >lines
    run cat -A lines
    foldplover readings lines --earlier none.earlier --later none.later
}
try '1 1 1\n'
try '0 1 1\n2 1 1\n'
try '0 1\n'
try '0 1 1 1\n'
try '0 1 4294967296\n'
try 'x 1 1\n'
try '0 1 -1\n'
printf '0 1 \377\n' >lines
foldplover readings lines --earlier none.earlier --later none.later
run ls
