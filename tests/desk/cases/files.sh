# Files that are not there or cannot be read: status 5, whoever runs this.
mkdir folder
ln -s loop loop
: >file
for text in none.txt folder loop file/plant.txt; do
    foldplover check "$text"
done
for command in diff apply; do foldplover $command none.txt; done
foldplover add none.txt 5 deny
foldplover why none.txt 10.0.0.1 10.0.0.2 tcp
foldplover undo none.txt
for file in none folder; do
    foldplover show "$file"
    foldplover packets "$file" -o out
done
foldplover order none -o out
foldplover readings none --earlier out --later out2
run ls
# Places that cannot be written to.
cp "$root/examples/dairy.txt" .
foldplover order dairy.txt -o folder
foldplover packets "folder/../file" -o folder
: >dairy.d
foldplover apply dairy.txt
foldplover diff dairy.txt
foldplover log dairy.txt
rm dairy.d
mkdir dairy.d dairy.d/lock
foldplover apply dairy.txt
run ls dairy.d
