# Out of damage by apply --anew, whatever is damaged.
cp "$root/examples/dairy.txt" .
quietly apply dairy.txt
changed dairy.d/0001/sum 3
foldplover log dairy.txt
foldplover apply dairy.txt --anew
foldplover log dairy.txt
foldplover diff dairy.txt
quietly add dairy.txt 5 deny dport 23
foldplover undo dairy.txt
for link in 0099 ../x; do
    ln -sfn $link dairy.d/current
    foldplover log dairy.txt
    foldplover apply dairy.txt --anew
    foldplover log dairy.txt
done
# Generations that were lost hide no others.
quietly add dairy.txt 5 deny dport 25
rm -r dairy.d/0003
foldplover log dairy.txt
foldplover undo dairy.txt 4 --try
foldplover why dairy.txt 10.0.0.1:1 10.0.0.2:2 tcp --of 2
# A number beyond all others.
mkdir dairy.d/4294967295
before=$(tree)
foldplover add dairy.txt 5 deny dport 24
unchanged "$before"
