# Lines that are no packets: the first is named, and nothing is written.
try() {
    printf "$1" >lines
    run cat -A lines
    foldplover packets lines -o out
}
try '1 2 3 4 6\n1 2 3 4\n'
try '1 2 3 4 6 1 1\n'
try '10.0.0.1\t10.0.0.2\t80\t\t\n'
try '10.0.0 2 3 4 6\n'
try '10.0.0.0/24 2 3 4 6\n'
try 'any 2 3 4 6\n'
try '1 2 65536 4 6\n'
try '1 2 3 80-90 6\n'
try '1 2 3 4 tkp\n'
try '1 2 3 4 6 often\n'
try '1 2 3 4 6 1000001\n'
try '1 2 3 4 6 600000\n1 2 3 4 6 400001\n'
try 'fe80::1 fe80::2 1 2 6\n'
try '1 2 3 4 6\n\n# remark\n1 2 3 x 6\n'
printf '1 2 3 4 6\n1 2 3 4 \377\n' >lines
foldplover packets lines -o out
printf '1 2 x 4 6\n' | foldplover packets - -o out
run ls
