# Packets that cannot be.
cat >plant.txt <<'TEXT'
name line 10.30.0.0/16
name plc 10.30.1.17
service web tcp 80,443
gate
allow
cell
allow
TEXT
quietly apply plant.txt
foldplover why plant.txt 10.0.0 10.0.0.2 tcp
foldplover why plant.txt 10.0.0.1 10.0.0.256 tcp
foldplover why plant.txt 10.0.0.0/24 10.0.0.2 tcp
foldplover why plant.txt any 10.0.0.2 tcp
foldplover why plant.txt 10.0.0.1 line tcp
foldplover why plant.txt 10.0.0.1 lpc tcp
foldplover why plant.txt 10.0.0.1:80-90 10.0.0.2 tcp
foldplover why plant.txt 10.0.0.1 plc:web tcp
foldplover why plant.txt 10.0.0.1 plc:70000 tcp
foldplover why plant.txt 10.0.0.1 plc:wbe tcp
foldplover why plant.txt 10.0.0.1 plc:tcp tcp
foldplover why plant.txt 10.0.0.1 10.0.0.2 tpc
foldplover why plant.txt 10.0.0.1 10.0.0.2 any
foldplover why plant.txt 10.0.0.1 10.0.0.2 http
foldplover why plant.txt fe80::1 10.0.0.2 tcp
