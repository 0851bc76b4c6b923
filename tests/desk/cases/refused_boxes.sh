# Refusal 7: boxes and own rules are more than 1,024 together, each deny having few enough. The dearest lines are named.
cat >plant.txt <<'TEXT'
gate
deny to 10.9.9.9 # this one is cheap
allow from 10.20.8.2,10.20.8.4,10.20.8.6,10.20.8.8,10.20.8.10,10.20.8.12,10.20.8.14,10.20.8.16,10.20.8.18
allow to 10.30.1.2,10.30.1.4,10.30.1.6,10.30.1.8,10.30.1.10,10.30.1.12,10.30.1.14,10.30.1.16,10.30.1.18
deny proto icmp,igmp
deny from 10.0.0.0/9
deny from 10.128.0.0/9
allow dport 80,102,443,502,2222,4840,5900,8080,20000
deny to 10.0.0.0/8
deny
cell
deny dport 161
allow
TEXT
foldplover check plant.txt
foldplover apply plant.txt
run ls
# 1,000 boxes leave room for 24 own rules.
cat >room.txt <<'TEXT'
gate
allow from 10.20.8.2,10.20.8.4,10.20.8.6,10.20.8.8,10.20.8.10,10.20.8.12,10.20.8.14,10.20.8.16,10.20.8.18
allow to 10.30.1.2,10.30.1.4,10.30.1.6,10.30.1.8,10.30.1.10,10.30.1.12,10.30.1.14,10.30.1.16,10.30.1.18
allow dport 80,102,443,502,2222,4840,5900,8080,20000
deny
cell
deny dport 1,2,3,4,5,6,7,8,9,10,11,12,13,14,15,16,17,18,19,20,21,22,23
allow
TEXT
foldplover check room.txt
sed -i 's/,23$/,23,24/' room.txt
foldplover check room.txt
