# Edits that cannot be: places and rules that are not there. Nothing is written.
cat >plant.txt <<'TEXT'
service web tcp 80,443
gate
deny dport 23 proto tcp @shells
allow
cell
allow
TEXT
quietly apply plant.txt
before=$(tree)
foldplover add plant.txt @shell deny to 10.0.0.1
foldplover set plant.txt @none deny
foldplover del plant.txt @Shells
foldplover set plant.txt 2 deny
foldplover del plant.txt 1
foldplover del plant.txt 7
foldplover add plant.txt 8 deny
foldplover add plant.txt after 7 deny
foldplover add plant.txt 1 deny to 10.0.0.1
foldplover add plant.txt 3 dney to 10.0.0.1
foldplover add plant.txt 3 deny to 10.0.0
foldplover set plant.txt @shells deny dport 23 proto tcp @shells @more
foldplover add plant.txt 3 deny dport web
foldplover add plant.txt 3 gate
foldplover set plant.txt 4 deny sport 'all day'
unchanged "$before"
