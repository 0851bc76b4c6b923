# Texts as other editors leave them: line ends of either kind, no end of the last line, letters of any kind.
printf 'gate\r\n  deny to 10.0.0.1 @one # K\303\274hlung\r\n\r\nallow\r\ncell\r\nallow' >plant.txt
quietly apply plant.txt
run cat -A plant.txt
quietly add plant.txt @one 'deny to 10.0.0.2 # '$'W\303\244rme'
run cat -A plant.txt
quietly set plant.txt @one deny to 10.0.0.3
run cat -A plant.txt
quietly add plant.txt after 7 allow
run cat -A plant.txt
quietly set plant.txt 8 deny
run cat -A plant.txt
quietly del plant.txt 2
run cat -A plant.txt
# The last line has no end: it gets none when it is set, and one when another comes behind it.
printf 'gate\nallow\ncell\nallow # last' >plain.txt
quietly apply plain.txt
quietly set plain.txt 4 deny
run cat -A plain.txt
quietly add plain.txt 5 allow
run cat -A plain.txt
quietly del plain.txt 5
run cat -A plain.txt
# A number behind the last line by one is its end; more is too much.
foldplover add plain.txt 6 deny
foldplover add plain.txt after 5 deny
foldplover add plain.txt 0 deny
