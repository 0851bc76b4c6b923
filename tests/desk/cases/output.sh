# Standard output that is full or closed; that it has no escape bytes when it is no terminal.
cp "$root"/examples/{plant.txt,plant.pair,dairy.txt,dairy.order} .
# full WORD..: with standard output on a device that is full.
full() {
    typed foldplover "$@"
    echo '(with standard output on /dev/full)'
    status=0
    tool "$@" 2>"$made/err" >/dev/full || status=$?
    sed 's/^/! /' "$made/err"
    [ $status = 0 ] || echo "= $status"
}
full --help
full check plant.txt
full why plant.txt 10.0.0.1:1 10.0.0.2:2 tcp
full show dairy.order
full order plant.txt -o -
# Whoever cannot be told of the difference gets no generation.
full apply dairy.txt
run ls dairy.d
# closed WORD..: a reader that reads nothing. That is no failure.
closed() {
    typed foldplover "$@"
    echo '(into a pipe that nobody reads)'
    { tool "$@" 2>"$made/err" || echo "= $?" >>"$made/err"; } | true
    sed 's/^/! /' "$made/err"
}
closed --help
closed check plant.txt
closed show plant.pair
# No standard output at all, and no standard error.
tool check dairy.txt >&- 2>"$made/err"
cat "$made/err"
status=0
tool check none.txt 2>&- || status=$?
echo "= $status"

quietly apply plant.txt
sed -i '15i deny from 10.20.0.0/16' plant.txt
{
    tool diff plant.txt || true
    tool why plant.txt 10.0.0.1:1 10.0.0.2:2 tcp || true
    tool why plant.txt 10.20.5.10:50000 10.30.1.17:502 tcp
} >plain 2>&1
echo "$(tr -cd '\033' <plain | wc -c) escape bytes"
