# How lines begin, sections, fields: every fault has its line and its column.
cat >plant.txt <<'TEXT'
deny from 10.0.0.1
Deny
dney to 10.0.0.1
permit from 10.0.0.1
  x
gate
gate
gate # a remark is no word
cell allow
allow cell
gate gate
@here gate
allow form 10.0.0.1
allow src 10.0.0.1
allow 10.0.0.1
allow from
allow from 10.0.0.1 to
allow all
deny	to	10.0.0.1	portt	5
TEXT
foldplover check plant.txt

cat >fields.txt <<'TEXT'
gate
service web tcp 80
deny from 10.0.0.1 from 10.0.0.2
deny source 10.0.0.1 from 10.0.0.2
deny to 10.0.0.1 destination 10.0.0.1
deny sport 5 source-port 5
deny destination-port 5 dport 6
deny proto tcp protocol tcp
deny dport 80 service web
deny from to 10.0.0.1
deny proto dport 80
deny dport proto tcp
deny service
cell
allow
TEXT
foldplover check fields.txt
