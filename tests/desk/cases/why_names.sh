# Packets asked for by the text's names and services; the generation's or the text's.
cat >plant.txt <<'TEXT'
name historian 10.20.5.10
name plc 10.30.1.17
name line 10.30.0.0/16
service opc tcp opcua
service web tcp 80,443
gate
allow from historian to line service opc
deny to line
allow
cell
allow
TEXT
foldplover why plant.txt historian:50000 plc:opc tcp
quietly apply plant.txt
foldplover why plant.txt historian:50000 plc:opc tcp
foldplover why plant.txt plc:opcua historian:50000 tcp
foldplover why plant.txt historian:50000 plc:modbus tcp
# The text is ahead: the answer is the generation's, or with --text the text's.
sed -i 's/historian to line/historian to plc/; s/^name plc.*/name plc 10.30.1.18/' plant.txt
foldplover why plant.txt historian:50000 10.30.1.17:opc tcp
foldplover why plant.txt historian:50000 10.30.1.17:opc tcp --text
foldplover why plant.txt historian:50000 plc:opc tcp --text
rm plant.txt
foldplover why plant.txt historian:50000 plc:opc tcp
foldplover why plant.txt historian:50000 plc:opc tcp --text
