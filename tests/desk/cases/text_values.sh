# Values that are nearly right.
cat >plant.txt <<'TEXT'
gate
deny from -5
deny dport 80-
deny to 10.0.0.
deny from /24
deny from 10.30.1.16-31
deny from 0.0.0.1-9
deny from web/24
deny dport 80,http
deny proto tcp dport 80 udp
deny dport 80 https
deny from name
deny proto icmp,1
allow
cell
name two 10.0.0.1,10.0.0.2
service web tcp 80
service other tcp 80,81
service udpweb udp 82
deny service web,other
deny service web proto tcp
deny proto tcp service web
deny from 10.0.0.1 dport web
deny proto udp dport web
deny proto tcp dport web,udpweb
deny service web service web
@x name foo 1.2.3.4
@y service foo tcp 1
allow
TEXT
foldplover check plant.txt
# As many rules on a line as a list may have, in one field of several.
{
    printf 'gate\nallow\ncell\ndeny dport 80 proto tcp from 10.0.0.0'
    seq -f ',10.0.0.%g' 1 254 | tr -d '\n'
    printf '\nallow\n'
} >many.txt
foldplover check many.txt | cut -c 1-60
# Rules that ask for a port where there is none are named.
printf 'gate\ndeny proto icmp dport 80\ndeny proto icmp\ndeny proto 99 dport 80\nallow\ncell\nallow\n' >icmp.txt
foldplover check icmp.txt
