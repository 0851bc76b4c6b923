# The bytes of a text: its encoding, its line ends, its length.
printf '\357\273\277gate\nallow\ncell\nallow\n' >mark.txt
foldplover check mark.txt
printf 'gate\nallow # caf\351\ncell\nallow\n' >latin.txt
foldplover check latin.txt
# The column counts characters, not bytes, in front of the byte as elsewhere.
printf 'gate\nallow # gr\303\266\303\237er \377\ncell\nallow\n' >column.txt
foldplover check column.txt
printf 'gate\nallow # \342\202' >cut.txt
foldplover check cut.txt
printf 'g\0a\0t\0e\0' >wide.txt
foldplover check wide.txt

# Both kinds of line ends, tabs, blanks at the ends, remarks in any letters, no end of the last line.
printf '# \320\246\320\265\321\205 7\r\ngate\r\n\tdeny\tfrom 10.0.0.1 # K\303\274hlung\r\n\r\nallow  \r\n  cell\t\nallow# \346\260\264' >right.txt
foldplover check right.txt
printf 'gate # Stra\303\237e\nden\303\277 from 10.0.0.1\ndeny \303\277 5\ndeny from 10.0.0.1\302\240\ncell\nallow\n' >words.txt
foldplover check words.txt
printf 'gate\ndeny \033[31m\nallow\ncell\nallow\n%s\n' "$(printf 'x%.0s' {1..60})" >shown.txt
foldplover check shown.txt

# 1,048,576 bytes are read, one more is not.
{ printf 'gate\nallow\ncell\nallow\n' && head -c 1048554 /dev/zero | tr '\0' '#'; } >long.txt
run wc -c long.txt
foldplover check long.txt
printf '#' >>long.txt
foldplover check long.txt

# Twenty faults are named, then how many more there are.
printf 'gate\n' >many.txt
for line in {1..23}; do echo "deny dport 7000$line"; done >>many.txt
foldplover check many.txt
: >empty.txt
foldplover check empty.txt
