# A text that is ahead of its generation: whoever hands the generation on is told.
cp "$root/examples/dairy.txt" .
quietly apply dairy.txt
echo '# a remark' >>dairy.txt
foldplover lists dairy.txt -o out
sed -i 's/^deny .*/deny/' dairy.txt
foldplover lists dairy.txt -o out
foldplover load dairy.txt --with true
foldplover report dairy.txt /dev/null - -
foldplover report dairy.txt /dev/null - - --of 1
foldplover lists dairy.txt -o out --as-is
foldplover log dairy.txt
echo nonsense >>dairy.txt
foldplover load dairy.txt --with true
rm dairy.txt
foldplover load dairy.txt --with true
foldplover load dairy.txt --with true --as-is
foldplover undo dairy.txt
foldplover diff dairy.txt
