# Files that a report cannot be made of.
cp "$root/examples/dairy.txt" .
cp "$root"/tests/report/dairy.{earlier,later} "$root/tests/report/ten.packets" .
foldplover report dairy.txt ten.packets - -
quietly apply dairy.txt
foldplover report dairy.txt ten.packets - dairy.later
foldplover report dairy.txt ten.packets dairy.earlier -
head -c 19 dairy.earlier >short
head -c 16 dairy.earlier >place
: >empty
foldplover report dairy.txt ten.packets short dairy.later
foldplover report dairy.txt ten.packets dairy.earlier place
foldplover report dairy.txt ten.packets empty empty
head -c 129 ten.packets >broken
foldplover report dairy.txt broken - -
head -c 13000013 /dev/zero >million
foldplover report dairy.txt million - -
foldplover report dairy.txt none - -
foldplover report dairy.txt ten.packets none dairy.later
foldplover report dairy.txt ten.packets dairy.earlier none
mkdir folder
foldplover report dairy.txt folder - -
# Readings of another list: the list has grown since.
quietly add dairy.txt 5 deny dport 23
foldplover report dairy.txt ten.packets dairy.earlier dairy.later
