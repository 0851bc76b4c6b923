# Sheets and lists as text; a sheet's text is one that can be applied.
cp "$root/examples/dairy.txt" .
quietly apply dairy.txt
quietly order dairy.txt -o dairy.order
foldplover show dairy.order
foldplover show dairy.d/current/pair
foldplover show dairy.d/current/gate
foldplover show dairy.d/current/cell
tool show dairy.d/current/pair >again.txt
foldplover apply again.txt
run cmp dairy.d/current/pair again.d/current/pair
cp "$root/examples/plant.pair" .
tool show plant.pair >plant.txt
quietly apply plant.txt
run cmp plant.pair plant.d/current/pair
# Values and ranges of every kind.
cat >fields.txt <<'TEXT'
gate
deny from 0-4294967294
deny from 10.0.0.1-10.0.0.2 to 10.0.0.2-10.0.0.3
deny sport 0 dport 65535
deny sport 0-65534 dport 1-65535
deny proto 0-254
deny proto 255
deny to 128.0.0.0/1
allow
cell
deny
TEXT
quietly order fields.txt -o fields.order
foldplover show fields.order
