# Lines that stand for several rules: from one to three, from three to one, all of them gone.
cat >plant.txt <<'TEXT'
service snmp2 udp 161,162
gate
deny dport 23 proto tcp @shells
allow
cell
deny dport 502 @modbus
allow
TEXT
quietly apply plant.txt
foldplover set plant.txt @shells deny dport 22,23,3389 proto tcp
foldplover set plant.txt @shells deny dport 3389 proto tcp
foldplover add plant.txt after @shells deny from 10.0.0.1,10.0.0.2 to 10.1.0.1,10.1.0.2
foldplover del plant.txt 4
foldplover set plant.txt @modbus deny service snmp2
foldplover set plant.txt @modbus deny dport 161,162,502 proto udp
foldplover del plant.txt @modbus
run cat plant.txt
# The list that would stand on the way is refused, since it has no full rule at its end: the text is moved afresh then.
foldplover set plant.txt 6 deny proto tcp,udp,any
foldplover log plant.txt
run cmp plant.txt plant.d/current/policy.txt
