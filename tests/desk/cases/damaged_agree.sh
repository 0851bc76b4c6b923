# Files whose sums are right and that do not belong together: check and the comparison find it.
cp "$root/examples/dairy.txt" dairy.txt
quietly apply dairy.txt
# resum: writes the sums of generation 1 anew, as a person could with sha256sum.
resum() {
    (
        cd dairy.d/0001 || exit
        { head -n 3 sum && sha256sum policy.txt pair gate cell; } >new
        echo "# sum $(sha256sum <new | cut -d ' ' -f 1)" >>new
        mv new sum
    )
}
resum
foldplover log dairy.txt
cp -a dairy.d kept
again() {
    rm -r dairy.d
    cp -a kept dairy.d
}
changed dairy.d/0001/pair 131
resum
foldplover diff dairy.txt
again
sed -i 's/0-29/0-39/' dairy.d/0001/policy.txt
resum
foldplover diff dairy.txt
again
sed -i 's/0-29/0-x/' dairy.d/0001/policy.txt
resum
foldplover diff dairy.txt
again
cp -f dairy.d/0001/gate dairy.d/0001/cell
resum
foldplover diff dairy.txt
again
cp -f dairy.d/0001/cell dairy.d/0001/gate
resum
foldplover diff dairy.txt
# The sums of another generation.
again
quietly add dairy.txt 5 deny dport 23
cp -f dairy.d/0001/* dairy.d/0002/
foldplover diff dairy.txt
