# A text against the generation: rules, boxes, packets. Status 1 where a rule differs.
cp "$root/examples/labels/plant.txt" .
foldplover diff plant.txt
quietly apply plant.txt
foldplover diff plant.txt
# Remarks, layout and other words for the same rules are no difference.
sed -i 's/^deny  destination 10.30.255.255/  deny to 10.30.255.255 # broadcasts/' plant.txt
foldplover diff plant.txt
# A rule that came, one that went, one that is another now.
cp "$root/examples/labels/plant.txt" .
sed -i '15i deny from 192.168.0.0/16' plant.txt
foldplover diff plant.txt
cp "$root/examples/labels/plant.txt" .
sed -i 30d plant.txt
foldplover diff plant.txt
cp "$root/examples/labels/plant.txt" .
sed -i '30s/502/502,503/' plant.txt
foldplover diff plant.txt
# Of the cell's own list.
cp "$root/examples/labels/plant.txt" .
sed -i '69s/22/2200-2299/' plant.txt
foldplover diff plant.txt
# A cell's allow for what the gate denies anyway lets nothing more through.
cp "$root/examples/labels/plant.txt" .
sed -i '66s/443/80-443/' plant.txt
foldplover diff plant.txt
# Two denies change places: rules differ, packets do not.
cp "$root/examples/labels/plant.txt" .
sed -i '15{h;d};16{G}' plant.txt
foldplover diff plant.txt
# More kinds of packets than are shown.
cp "$root/examples/labels/plant.txt" .
sed -i '15i deny' plant.txt
foldplover diff plant.txt
