# Addresses, prefixes and ranges. Nothing is completed: a short address is a fault.
cat >plant.txt <<'TEXT'
gate
deny from 10.20
deny from 10.20.8
deny from 10.20.8.1.1
deny from 10/8
deny from 10.20/16
deny from 10.20.8.1/28
deny to 10.20.8.0/8
deny from 10.20.8.0/33
deny from 10.20.8.0/08
deny from 10.20.8.0/x
deny to 10.0.0.256
deny to 10.0.010.1
deny to 10.0.0.1-10.0.x.2
deny to 10.0.0.9-10.0.0.1
deny to 4294967296
deny from 99999999999999999999
deny from plc7
deny from tcp
deny from http
cell
allow
TEXT
foldplover check plant.txt

# What is right: a number is an address as it is, a range may have any ends, a prefix of 0 bits is every address.
cat >right.txt <<'TEXT'
gate
deny from 10 to 4294967295
deny from 10.0.0.0-10.0.0.2 to 10.0.0.8/29
deny from 1.2.3.4/32 to 0.0.0.0
allow from 0.0.0.0/0 to any
cell
allow
TEXT
foldplover order right.txt -o right.order
foldplover show right.order
