# Order sheets, byte for byte those of the examples; also of a text that a move refuses.
for name in plant dairy refused; do
    cp "$root/examples/$name.txt" .
    foldplover order "$name.txt" -o "$name.order"
    run cmp "$name.order" "$root/examples/$name.order" | sed "s#$root/##"
done
tool order dairy.txt -o - >standard
run cmp standard dairy.order
# What is no sheet: lists without a rule, too long, without an end; a text at fault.
printf 'gate\ncell\nallow\n' >plant.txt
foldplover order plant.txt -o plant.order
printf 'gate\nallow\ncell\ndeny dport 5\n' >plant.txt
foldplover order plant.txt -o plant.order
{ echo gate && for port in {1..64}; do echo "deny dport $port"; done && printf 'allow\ncell\nallow\n'; } >plant.txt
foldplover order plant.txt -o plant.order
printf 'gat\n' >plant.txt
foldplover order plant.txt -o plant.order
run cmp plant.order "$root/examples/plant.order" | sed "s#$root/##"
