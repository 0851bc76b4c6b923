# The two lists on their way to the filters.
cp "$root/examples/dairy.txt" .
foldplover lists dairy.txt -o out
quietly apply dairy.txt
foldplover lists dairy.txt -o out
run ls out
run cmp out/cell.list dairy.d/0001/cell
run cmp out/gate.list dairy.d/0001/gate
# An earlier copy is replaced.
foldplover lists dairy.txt -o out --back
run ls out
foldplover show out/gate.list
foldplover show out/cell.list
foldplover lists dairy.txt -o none/out
foldplover lists dairy.txt -o dairy.txt
