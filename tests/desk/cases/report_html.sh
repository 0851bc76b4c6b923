# The report as a page: one file, no script, nothing from elsewhere, the plant's name and lines in it.
cp "$root"/examples/plant.{txt,packets,earlier,later} .
quietly apply plant.txt
quietly add plant.txt after 20 deny from 10.1.1.1
quietly undo plant.txt
tool report plant.txt plant.packets plant.earlier plant.later >plain
tool report plant.txt plant.packets plant.earlier plant.later --html page.html >printed 2>said
run cmp plain printed
run cat said
echo "it begins with $(head -c 15 page.html | tr '[:upper:]' '[:lower:]')"
# Each of these is counted; those that may not be there are 0.
for what in '<script' 'src=' 'href=' 'http' '<svg' '</svg>' '</html>'; do echo "$what: $(grep -ci -- "$what" page.html || true)"; done |
    sed -E 's/^(<svg|<\/svg>): [1-9][0-9]*$/\1: some/'
run grep -m 1 -o '<title>.*</title>' page.html
for what in 'generation 3' 'deny destination 10.30.9.0/28' '920'; do
    if grep -qi -- "$what" page.html; then echo "has $what"; else echo "HAS NO $what"; fi
done
# A name with letters that mean something in a page.
cp "$root/examples/dairy.txt" 'a<b>&"c.txt'
quietly apply 'a<b>&"c.txt'
: >none
quietly report 'a<b>&"c.txt' none - - --html odd.html
run grep -m 1 -o '<title>.*</title>' odd.html
if grep -q 'a<b>' odd.html; then echo 'THE NAME STANDS IN IT AS IT IS'; fi
# An earlier page is replaced; without readings there are no hits.
foldplover report 'a<b>&"c.txt' none - - --html page.html
run grep -m 1 -o '<title>.*</title>' page.html
