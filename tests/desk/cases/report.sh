# The load report: with readings and without, with packets and without.
cp "$root"/examples/plant.{txt,packets,earlier,later} .
quietly apply plant.txt
foldplover report plant.txt plant.packets plant.earlier plant.later
foldplover report plant.txt plant.packets - -
cp "$root/examples/dairy.txt" "$root/tests/report/ten.packets" .
quietly apply dairy.txt
foldplover report dairy.txt ten.packets - -
: >none
foldplover report dairy.txt none - -
head -c 20 /dev/zero >zeros
foldplover report dairy.txt none zeros zeros
