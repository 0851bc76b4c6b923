# The declarations `name` and `service`.
cat >plant.txt <<'TEXT'
name plc 10.30.1.0/24
name plc 10.30.2.0/24
service plc tcp 102
service web tcp 80,443
service web udp 80
name web 10.1.1.1
name gate 10.1.1.1
name any 10.1.1.1
name from 10.1.1.1
name tcp 10.1.1.1
service deny tcp 5
service http tcp 8080
name 7up 10.1.1.1
name a.b 10.1.1.1
name größe 10.1.1.1
name
name plc2
name plc2 10.1.1.1 10.1.1.2
service
TEXT
foldplover check plant.txt

cat >more.txt <<'TEXT'
service s tcp
service s tcp 80 443
service s any 80
service s 6-17 80
service s tpc 80
service s tcp 80,80
service s tcp 80,
service s tcp 65536
service dns2 udp 53
service s tcp dns2
name plc 10.30.1.1/24
name plc 10.30.300.1
gate
deny from early
deny service ealry
deny service http
deny service 80
name early 10.1.1.1
service early2 tcp 5
deny to earyl
deny service early2,early3
cell
allow
TEXT
foldplover check more.txt

# What is right: names of names, services of services, a name of a port's word for an address, any case of letters.
cat >right.txt <<'TEXT'
name line 10.30.0.0/16
name same line
name http 10.1.1.1
name Line_2-b 10.31.0.0/16
service web tcp http,https
service both tcp web,8000-8009
service ping icmp any
gate
deny from same to http dport http
deny from LINE
allow
cell
allow service both
allow dport web proto tcp
allow sport web dport both proto tcp
deny
TEXT
foldplover check right.txt
sed -i s/LINE/Line_2-b/ right.txt
foldplover check right.txt
foldplover order right.txt -o right.order
foldplover show right.order
