# Generations: what is made, and when none is.
cp "$root"/examples/{plant,dairy}.txt .
foldplover apply dairy.txt
foldplover apply dairy.txt
run ls dairy.d dairy.d/0001
run readlink dairy.d/current
(cd dairy.d/0001 && run sha256sum -c sum)
typed cat dairy.d/0001/sum
masked <dairy.d/0001/sum | sed '$d'
run cmp dairy.txt dairy.d/0001/policy.txt
run cmp "$root/tests/report/dairy.pair" dairy.d/0001/pair | sed "s#$root/##"
foldplover apply plant.txt
run cmp "$root/examples/plant.pair" plant.d/current/pair | sed "s#$root/##"
# A remark more makes a generation, with the same lists.
echo '# looked at by night' >>dairy.txt
foldplover apply dairy.txt
run cmp dairy.d/0001/pair dairy.d/0002/pair
sed -i 's/0-29/0-39/' dairy.txt
foldplover apply dairy.txt
(cd dairy.d/0003 && run sha256sum -c --quiet sum)
foldplover apply dairy.txt --anew
foldplover log dairy.txt
run readlink dairy.d/current
# A text at fault makes none.
echo 'deny fro 10.0.0.1' >>dairy.txt
before=$(tree)
foldplover apply dairy.txt
foldplover apply dairy.txt --anew
foldplover diff dairy.txt
unchanged "$before"
