# Ports that are left out may be any: where the answer hangs on them, each answer has its ports.
cat >plant.txt <<'TEXT'
gate
deny dport 22-23 proto tcp
deny sport 0-1023 proto udp
allow
cell
allow dport 443 proto tcp
allow dport 53 proto udp
allow dport 123 proto udp
deny
TEXT
quietly apply plant.txt
foldplover why plant.txt 10.0.0.1 10.0.0.2 tcp
foldplover why plant.txt 10.0.0.1:5000 10.0.0.2 tcp
foldplover why plant.txt 10.0.0.1 10.0.0.2:443 tcp
foldplover why plant.txt 10.0.0.1 10.0.0.2:123 udp
foldplover why plant.txt 10.0.0.1:2000 10.0.0.2 udp
foldplover why plant.txt 10.0.0.1 10.0.0.2:7 sctp
