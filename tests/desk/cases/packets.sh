# Packet bytes, byte for byte those of the examples; lines as tshark prints them.
cp "$root/examples/plant.capture" "$root/tests/report/ten.capture" .
foldplover packets plant.capture -o plant.packets
run cmp plant.packets "$root/examples/plant.packets" | sed "s#$root/##"
foldplover packets ten.capture -o ten.packets
run cmp ten.packets "$root/tests/report/ten.packets" | sed "s#$root/##"
tool packets - -o - <ten.capture >standard
run cmp standard ten.packets
# Tabs with empty ports, blanks, line ends of either kind, names of ports and protocols, how often a packet came.
printf '# none\n\n10.0.0.1\t10.0.0.2\t\t\t1\r\n10.0.0.1 10.0.0.2  5 http  tcp 2\n\t\t\n1 2 0 0 0 # last' >lines
foldplover packets - -o out <lines
run od -An -tx1 -w13 out
printf '10.0.0.1 10.0.0.2 1 2 6 0\n' >never
foldplover packets never -o out
: >empty
foldplover packets empty -o out
run wc -c out
printf '1 2 3 4 5 1000000\n' >million
foldplover packets million -o out
