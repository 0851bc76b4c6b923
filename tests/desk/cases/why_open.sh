# Open ports: every place, and no heading that says two things.
cp "$root/examples/labels/plant.txt" .
quietly apply plant.txt
foldplover why plant.txt 10.10.4.2 10.30.3.17 tcp
foldplover why plant.txt 10.10.4.2 10.30.3.17:444 tcp
cat >two.txt <<'TEXT'
gate
deny sport 10-20 dport 10-20
allow sport 10-30 dport 10-30
deny
cell
allow
TEXT
foldplover why two.txt 10.0.0.1 10.0.0.2 tcp
foldplover why two.txt 10.0.0.1:15 10.0.0.2 tcp
foldplover why two.txt 10.0.0.1 10.0.0.2:15 tcp
# A line that stands for several rules, and one that stands behind.
cat >lists.txt <<'TEXT'
gate
allow from 10.1.0.0/16 dport 53,123 proto udp
deny from 10.1.0.0/16
allow from 10.1.0.1 dport 80 proto tcp
allow from 10.1.0.1 dport 81 proto tcp
deny
cell
allow
TEXT
foldplover why lists.txt 10.1.0.1:1 10.0.0.2:54 udp
foldplover why lists.txt 10.1.0.1:1 10.0.0.2:80 tcp
foldplover why lists.txt 10.1.0.1:1 10.0.0.2:82 tcp
# Services and ports where they do not belong.
printf 'service web tcp 80\ngate\nallow\ncell\nallow\n' >web.txt
foldplover why web.txt 10.0.0.1 10.0.0.2:web tcp
foldplover why web.txt 10.0.0.1 10.0.0.2:web udp
foldplover why web.txt 10.0.0.1 10.0.0.2:80 icmp
# Many rules with ports take no time to speak of.
{
    printf 'gate\nallow\ncell\n'
    for n in $(seq 255); do echo "deny sport $((2 * n))-$((2 * n + 9)) dport $((3 * n))-$((3 * n + 7))"; done
    echo allow
} >many.txt
foldplover why many.txt 10.0.0.1 10.0.0.2 tcp | tail -n 4
