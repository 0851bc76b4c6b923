# Refusal 6: the deny that falls into too many pieces, and the allow at which it does.
cp "$root/examples/refused.txt" .
before=$(tree)
foldplover check refused.txt
foldplover diff refused.txt
foldplover apply refused.txt
foldplover why refused.txt 10.0.0.1 10.0.0.2 tcp
unchanged "$before"
# The same on three lines: a line that stands for ten allows is named as a whole.
cat >lines.txt <<'TEXT'
gate
allow from 10.20.8.2,10.20.8.4,10.20.8.6,10.20.8.8,10.20.8.10,10.20.8.12,10.20.8.14,10.20.8.16,10.20.8.18,10.20.8.20
allow to 10.30.1.2,10.30.1.4,10.30.1.6,10.30.1.8,10.30.1.10,10.30.1.12,10.30.1.14,10.30.1.16,10.30.1.18,10.30.1.20
allow dport 80,102,443,502,2222,4840,5900,8080,20000,44818
deny proto udp # this deny comes first, so it is the one named
deny
cell
allow
TEXT
foldplover check lines.txt
sed -i '/^deny proto/d' lines.txt
foldplover check lines.txt
