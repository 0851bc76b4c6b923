# apply --anew makes a generation beside one that cannot be used any more.
cp "$root/examples/dairy.txt" .
quietly apply dairy.txt
quietly add dairy.txt 5 deny dport 23 proto udp
for file in policy.txt pair gate cell; do
    changed "dairy.d/current/$file" 20
    foldplover apply dairy.txt --anew
done
foldplover log dairy.txt
foldplover apply dairy.txt
foldplover diff dairy.txt
# The step back is one that cannot be used; one further is not.
foldplover undo dairy.txt
foldplover undo dairy.txt 1
run cmp dairy.txt "$root/examples/dairy.txt" | sed "s#$root/##"
