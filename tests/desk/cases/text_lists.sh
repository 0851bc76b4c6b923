# Lists of values: one missing, one twice, too many; lines that stand for several rules.
cat >plant.txt <<'TEXT'
gate
service web tcp 80,443
deny dport 80,,443
deny dport ,80
deny dport 80,
deny dport ,
deny dport 80,443,80
deny from 10.0.0.1,10.0.0.0/24,10.0.0.1
deny from 10.0.0.1,10.0.0.300
deny proto tcp,udp,tcp
deny proto tcp,upd
deny service web,web
deny service web,wep
deny from 10.0.0.1, 10.0.0.2
cell
allow
TEXT
foldplover check plant.txt

# A line's rules are in the order of its values, the first field's outermost; values may share addresses.
cat >right.txt <<'TEXT'
gate
deny from 10.0.0.1,10.0.0.0/24 to 10.1.0.0-10.1.0.2 dport 22,80-90
allow
cell
allow service ssh2,web
allow sport 5,6 proto udp,tcp
deny
name office 10.10.0.0/16
service ssh2 tcp 2222
service web tcp 80,443
TEXT
foldplover check right.txt
sed -i '/^service/d' right.txt
sed -i '1i service ssh2 tcp 2222\nservice web tcp 80,443' right.txt
foldplover check right.txt
foldplover order right.txt -o right.order
foldplover show right.order
