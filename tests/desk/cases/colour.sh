# On a terminal the verdicts have colours. `script` makes one; where it is missing or can make none, nothing is tested.
cp "$root/examples/dairy.txt" .
quietly apply dairy.txt
sed -i 's/0-29/0-39/; s/10-19/10-12/' dairy.txt
# on_terminal WORD..: what the tool prints there, with escape bytes as ^[.
on_terminal() {
    script -qec "'$root/tests/x86' run '$root/target/foldplover' $*" /dev/null </dev/null | tr -d '\r' | cat -v
}
# wanted SEEN PATTERN: says so only if it is not so, so that the case prints the same with and without `script`.
wanted() {
    if ! grep -qF -- "$2" <<<"$1"; then printf 'MISSING %s IN\n%s\n' "$2" "$1"; fi
}
if command -v script >"$made/out" && [ "$(script -qec 'test -t 1 && echo terminal' /dev/null </dev/null 2>&1 | tr -d '\r')" = terminal ]; then
    seen=$(on_terminal why dairy.txt 10.0.0.1:1 0.0.0.5:80 tcp || true)
    wanted "$seen" '^[[31mdropped^[[0m by'
    seen=$(on_terminal why dairy.txt 10.0.0.1:1 0.0.0.12:80 tcp || true)
    wanted "$seen" '^[[32mforwarded^[[0m by'
    seen=$(on_terminal diff dairy.txt || true)
    wanted "$seen" '^[[31m  - dairy.d/0001/policy.txt:5: deny destination 0-29 protocol tcp (4 boxes)^[[0m'
    wanted "$seen" '^[[32m  + dairy.txt:5: deny destination 0-39 protocol tcp (4 boxes)^[[0m'
    wanted "$seen" '^[[31mnow dropped:^[[0m'
fi
echo 'colours as they should be'
