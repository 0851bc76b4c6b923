# What concerns most packets stands first, and --all prints the rest.
{
    printf 'gate\nallow from 10.0.0.1\ndeny @last\ncell\n'
    for n in $(seq 12); do echo "allow from 10.2.0.$n to 10.3.0.$n dport $n proto tcp"; done
    printf 'allow to 10.1.0.0/16 proto tcp\ndeny\n'
} >plant.txt
quietly apply plant.txt
foldplover set plant.txt @last allow --try
foldplover set plant.txt @last allow --try --all
# A name that means something else now.
printf 'name plc 10.0.0.1\nservice web tcp 80\ngate\ndeny to plc\ndeny service web\nallow\ncell\nallow\n' >named.txt
quietly apply named.txt
sed -i 's/10.0.0.1/10.0.0.2/; s/tcp 80/tcp 81,82/' named.txt
foldplover diff named.txt
# Packets that nobody can send, with ports of a protocol that has none, are shown last.
printf 'gate\ndeny dport 7\ndeny dport 9\ndeny\ncell\nallow\n' >icmp.txt
quietly apply icmp.txt
foldplover add icmp.txt 2 allow from 10.0.0.1 proto icmp --try
