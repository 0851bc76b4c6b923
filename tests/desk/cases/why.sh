# Why a packet is forwarded or dropped: by which line, and which allow came nearest.
cp "$root"/examples/{plant,dairy}.txt .
foldplover why plant.txt 10.20.5.10:50000 10.30.1.17:502 tcp
quietly apply plant.txt
quietly apply dairy.txt
echo '# forwarded by an own rule'
foldplover why plant.txt 10.20.5.10:50000 10.30.1.17:502 tcp
echo '# dropped by a gate rule, which has several boxes'
foldplover why plant.txt 10.10.4.2:50000 10.30.1.17:502 tcp
foldplover why plant.txt 10.20.5.200:50000 10.30.1.200:modbus 6
echo '# dropped by an own rule'
foldplover why plant.txt 10.20.1.3:1 10.20.4.4:161 udp
foldplover why plant.txt 10.20.5.1:50000 10.20.5.2:80 tcp
echo '# protocols without ports'
foldplover why plant.txt 10.20.1.3 10.30.3.17 icmp
foldplover why plant.txt 10.10.1.3 10.30.3.17 icmp
foldplover why plant.txt 10.30.1.1 10.20.1.1 gre
foldplover why plant.txt 10.20.1.1 10.21.1.1 89
echo '# an allow that has the packet and stands behind the deny'
foldplover why dairy.txt 10.0.0.1:40000 0.0.0.5:80 tcp
foldplover why dairy.txt 10.0.0.1:40000 12:80 tcp
echo '# a list without an allow'
printf 'gate\nallow\ncell\ndeny dport 23\ndeny\n' >closed.txt
foldplover why closed.txt 10.0.0.1:1 10.0.0.2:2 udp --text
