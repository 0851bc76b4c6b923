# Words that are missing or too many, and options that are not there, stand twice or have no value.
for command in check diff apply del why show log undo report lists load order packets readings; do
    foldplover "$command"
done
for command in check diff apply add set del why show log undo report lists load order packets readings; do
    foldplover "$command" a.txt --bogus
done
foldplover check a.txt b.txt
foldplover apply a.txt --anew --anew
foldplover add a.txt
foldplover add a.txt after
foldplover add a.txt @x
foldplover add a.txt @x ' '
foldplover add a.txt after 5
foldplover add a.txt 5 $'deny\nallow'
foldplover set a.txt
foldplover set a.txt @x
foldplover set a.txt @x $'deny\nallow'
foldplover del a.txt 1 2
foldplover why a.txt 10.0.0.1 10.0.0.2
foldplover why a.txt 10.0.0.1 10.0.0.2 tcp 80
foldplover undo a.txt 1 2
foldplover report a.txt packets - - -
foldplover report a.txt packets - - --html
foldplover lists a.txt
foldplover lists a.txt -o
foldplover lists a.txt -o x -o y
foldplover load a.txt
foldplover load a.txt --with
foldplover load a.txt --with x --with y
foldplover order a.txt
foldplover order a.txt -o
foldplover packets a
foldplover packets a b -o c
foldplover readings a --earlier b
foldplover readings a --later b
foldplover readings a --earlier b --later c d
