# Any generation can be asked.
cp "$root/examples/dairy.txt" .
quietly apply dairy.txt
quietly add dairy.txt 5 deny dport 23
foldplover why dairy.txt 10.0.0.1:1 10.0.0.2:23 udp
foldplover why dairy.txt 10.0.0.1:1 10.0.0.2:23 udp --of 1
cp "$root"/tests/report/{ten.packets,dairy.earlier,dairy.later} .
foldplover report dairy.txt ten.packets dairy.earlier dairy.later --of 1
foldplover report dairy.txt /dev/null - - --of 2
for number in 0 3 x 4294967296; do
    foldplover why dairy.txt 10.0.0.1:1 10.0.0.2:23 udp --of $number
    foldplover report dairy.txt /dev/null - - --of $number
done
foldplover why dairy.txt 10.0.0.1:1 10.0.0.2:23 udp --of 1 --text
# Undo to the text that is there already.
foldplover undo dairy.txt 2
