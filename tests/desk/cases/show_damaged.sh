# Sheets and lists that are cut off, too long or changed.
pair="$root/tests/report/dairy.pair"
: >empty
foldplover show empty
printf '\0\0' >none
foldplover show none
head -c 111 "$root/examples/dairy.order" >cut.order
foldplover show cut.order
{ cat "$root/examples/dairy.order" && printf x; } >long.order
foldplover show long.order
head -c 219 "$pair" >cut.pair
foldplover show cut.pair
{ cat "$pair" && printf x; } >long.pair
foldplover show long.pair
# One byte: the action of the first rule, the last rule's high end, a box.
cp "$root/examples/dairy.order" action.order
changed action.order 28
foldplover show action.order
cp "$pair" box.pair
changed box.pair 131
foldplover show box.pair
cp "$root/examples/dairy.order" count.order
changed count.order 1
foldplover show count.order
# A list to load need not end in a full rule.
{ printf '\0\1' && head -c 29 "$root/examples/dairy.order" | tail -c 27; } >list
foldplover show list
cp "$root/examples/refused.order" .
tool show refused.order >refused.txt
foldplover check refused.txt
cp "$root/examples/labels/plant.txt" .
foldplover show plant.txt
