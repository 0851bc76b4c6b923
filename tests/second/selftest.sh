#!/bin/sh
# The second program's tests of itself, without the product: the model against the tables of the
# build scope, the files made from it against the model, then the driver against the mirror, which
# it has to pass, and against every broken mirror, each of which it has to find. What is built goes
# to target/mirror.
set -eu
cd "$(dirname "$0")/../.."
out=target/mirror
sources='tests/second/mirror/*.rs'
mkdir -p $out
rustc -O --edition 2021 --crate-type staticlib -o $out/libfoldplover.a tests/second/lib.rs
rustc -O --edition 2021 --cfg library -L native=$out -o $out/second tests/second/main.rs

# Each command by itself, so that one that fails is seen.
$out/second selftest
$out/second cases 300 4 >$out/cases.bin
$out/second expected <$out/cases.bin >$out/cases.out
for made in $out/cases.bin crates/test_cases/stdin; do cmp $made tests/second/data/cases.bin; done
for made in $out/cases.out crates/test_cases/stdout; do cmp $made tests/second/data/cases.out; done
$out/second before <examples/plant.order >$out/before_w2.pair
cmp $out/before_w2.pair tests/second/data/before_w2.pair
for order in examples/*.order; do
    $out/second plan <"$order" >$out/plan.out
    cmp $out/plan.out "${order%.order}.out"
done
$out/second move <examples/plant.order >$out/made.pair
cmp $out/made.pair examples/plant.pair
$out/second move <examples/dairy.order >$out/made.pair
cmp $out/made.pair tests/report/dairy.pair
head -c 8401 tests/report/longest.pair >$out/longest.order
$out/second move <$out/longest.order >$out/made.pair
cmp $out/made.pair tests/report/longest.pair
$out/second report examples/plant.pair examples/plant.packets examples/plant.earlier examples/plant.later >$out/made.report
for stored in examples/plant.report crates/report/stdout; do cmp $out/made.report $stored; done
for kind in pair packets earlier later; do cmp examples/plant.$kind crates/report/data/plant.$kind; done

# What report prints for files in $out/load: a packet that the example's second box drops; readings
# that are met before the packets, a sheet before the readings; names and words that are not there.
load=$out/load
mkdir -p $load
$out/second move <examples/dairy.order >$load/sheet
printf '\0\0\0\1\0\0\0\24\0\5\0\120\6' >$load/packets
printf '\377\377\377\376\0\0\0\7%12s' ' ' >$load/earlier
printf '\0\0\0\2\0\0\1\7%12s' ' ' >$load/later
report() {
    printf "$1" >$out/wanted.txt
    shift
    (cd $load && ../second report "$@") >$out/printed.txt
    cmp $out/printed.txt $out/wanted.txt
}
report 'packets 1\nbefore 2\nafter 3\nforwarded 0\ngain 2/3\n0 4\n1 256\n2 0\n3 0\n4 0\n' \
    sheet packets earlier later
report 'packets 0\nbefore 0\nafter 0\nforwarded 0\ngain none\n0 0\n1 0\n2 0\n3 0\n4 0\n' \
    sheet /dev/null later later
report 'refused 3\n' sheet earlier earlier later
report 'cannot read .\n' sheet . earlier later
report 'refused 3\n' sheet . packets later
report 'refused 3\n' sheet . earlier /dev/null
report 'refused 2\n' later . packets packets
report 'cannot read none\n' . none nothing later
report 'cannot read .\n' . packets earlier later
report 'usage: report SHEET PACKETS EARLIER LATER\n' sheet packets earlier
report 'usage: report SHEET PACKETS EARLIER LATER\n' sheet packets earlier later later

drive() {
    $out/second drive "$@" >$out/report.txt 2>$out/progress.txt
}

# A few cases do not meet every answer, enough of them have to.
drive 10 1
tail -n 1 $out/report.txt | grep '^10 cases, .* no difference, [0-9]* answers never met$'
drive 20000 1
tail -n 1 $out/report.txt | grep '^20000 cases, .* no difference, every answer met$'

# The cut that shows faults is another than the model's. Without a fault it has to pass, or its
# faults would be found whatever they were.
(
    export FOLDPLOVER_BROKEN=cut-without-fault
    drive 20000 1
)

# The names that the mirror asks `shows` for: at least one, and no question without one.
asked=$(grep -ohE '(fn )?shows\(' $sources | grep -vc fn || true)
faults=$(grep -ohE 'shows\("[a-z0-9-]+"\)' $sources | cut -d '"' -f 2)
named=$(echo "$faults" | grep -c . || true)
if [ "$named" = 0 ] || [ "$named" != "$asked" ]; then
    echo "NO NAME   of $asked faults $named can be read"
    exit 1
fi

missed=0
for fault in $faults; do
    export FOLDPLOVER_BROKEN="$fault"
    if drive 20000 1; then
        echo "NOT FOUND $fault"
        missed=1
    elif grep -q 'in case' $out/report.txt; then
        echo "found     $fault, $(grep -o 'in case [0-9]*' $out/report.txt)"
    else
        echo "NO REPORT $fault"
        missed=1
    fi
done
exit $missed
