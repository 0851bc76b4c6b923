# del: the line goes, with its remark; nothing else does.
cat >plant.txt <<'TEXT'
gate
# One.
deny to 10.0.7.1 @one
# Two.
deny to 10.0.7.2 # goes with it

allow
cell
deny dport 23 proto tcp @telnet
allow
TEXT
quietly apply plant.txt
foldplover del plant.txt @one
foldplover del plant.txt 4
foldplover del plant.txt @telnet
run cat plant.txt
