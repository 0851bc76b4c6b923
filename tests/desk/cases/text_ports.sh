# Ports and protocols, and either where the other stands.
cat >plant.txt <<'TEXT'
gate
service web tcp 80
name plc 10.30.1.1
deny dport tcp
deny sport udp
deny proto http
deny proto 80,443
deny dport plc
deny proto web
deny from web
deny dport htpt
deny proto tpc
deny proto TCP
deny dport 65536
deny dport 0-65536
deny proto 256
deny dport 080
deny proto 06
deny dport 90-80
deny dport 8o
deny dport 80/tcp
deny dport 1-2-3
cell
allow
TEXT
foldplover check plant.txt

cat >right.txt <<'TEXT'
gate
deny sport 0 dport 65535 proto 255
deny dport ftp,ssh,telnet,smtp,dns,tftp,http,iso-tsap,ntp
deny dport snmp,snmptrap,ldap,https,smb,modbus,syslog,ldaps
deny dport mqtt,iec104,rdp,opcua,vnc,mqtts,dnp3,enip,bacnet
deny proto icmp,igmp,ipip,tcp,udp,gre,esp,ah,ospf,pim,vrrp,sctp
allow sport any dport 0-65535 proto 0-255
cell
allow
TEXT
foldplover order right.txt -o right.order
foldplover show right.order
