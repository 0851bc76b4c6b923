# Edits that the library refuses write nothing, and the lines they name are those of the text as it stands.
cat >plant.txt <<'TEXT'
gate
allow from 10.20.8.2,10.20.8.4,10.20.8.6,10.20.8.8,10.20.8.10,10.20.8.12,10.20.8.14,10.20.8.16,10.20.8.18
allow to 10.30.1.2,10.30.1.4,10.30.1.6,10.30.1.8,10.30.1.10,10.30.1.12,10.30.1.14,10.30.1.16,10.30.1.18
allow dport 80,102,443,502,2222,4840,5900,8080,20000
deny
cell
deny dport 1,2,3,4,5,6,7,8,9,10,11,12,13,14,15,16,17,18,19,20,21,22,23
allow
TEXT
quietly apply plant.txt
before=$(tree)
foldplover add plant.txt 5 allow from 10.99.0.1
foldplover set plant.txt 4 allow dport 80,102,443,502,2222,4840,5900,8080,20000,44818
foldplover add plant.txt 7 deny dport 24
foldplover add plant.txt 5 deny to 10.30.1.0/24
foldplover add plant.txt after 5 deny to 10.30.1.0/24
foldplover set plant.txt 5 deny to 10.30.1.0/24
foldplover del plant.txt 5
foldplover del plant.txt 8
foldplover set plant.txt 8 allow from 10.0.0.0/8
unchanged "$before"
foldplover log plant.txt

# The only rule of a list.
printf 'gate\nallow\ncell\nallow\n' >small.txt
quietly apply small.txt
before=$(tree)
foldplover del small.txt 2
foldplover del small.txt 4
unchanged "$before"

# As many rules as there may be, and one more.
{ echo gate && for port in {1..63}; do echo "deny dport $port"; done && printf 'allow\ncell\nallow\n'; } >full.txt
quietly apply full.txt
before=$(tree)
foldplover add full.txt 5 deny from 10.0.0.1
foldplover add full.txt after 64 deny from 10.0.0.1
unchanged "$before"
