# The link `current`: one that is lost or leads nowhere stops every command.
cp "$root/examples/dairy.txt" .
quietly apply dairy.txt
quietly add dairy.txt 5 deny dport 23
rm dairy.d/current
foldplover log dairy.txt
foldplover diff dairy.txt
foldplover lists dairy.txt -o out
foldplover add dairy.txt 5 deny dport 24
foldplover apply dairy.txt
foldplover apply dairy.txt --anew
foldplover log dairy.txt
run readlink dairy.d/current
# As after a copy that follows links.
rm dairy.d/current
cp -r dairy.d/0002 dairy.d/current
foldplover diff dairy.txt
foldplover apply dairy.txt --anew
rm -r dairy.d/current
# A generation that is not there, and a link that is no number.
ln -sfn 0099 dairy.d/current
before=$(tree)
foldplover log dairy.txt
foldplover diff dairy.txt
foldplover apply dairy.txt
foldplover add dairy.txt 5 deny dport 24
foldplover why dairy.txt 10.0.0.1:1 10.0.0.2:2 tcp
foldplover lists dairy.txt -o out
unchanged "$before"
ln -sfn ../elsewhere dairy.d/current
foldplover log dairy.txt
foldplover apply dairy.txt
for name in 1 0000 0001/; do
    echo "# current is a link to '$name'"
    ln -sfn "$name" dairy.d/current
    foldplover lists dairy.txt -o out
done
# Set right by hand.
ln -sfn 0001 dairy.d/current
foldplover log dairy.txt
