#!/bin/sh
# Builds the program report and runs it on stored cases. What it prints has to be the same byte for byte; the first case that differs is
# named. Most cases are of the dairy example, whose cell list has five places. The bytes in
# tests/report were made by examples/make.py from the readable files beside them, dairy.pair by the second program.
set -eu
cd "$(dirname "$0")/.."
tests/build report
made=target/report_cases
rm -rf "$made"
mkdir -p "$made/folder"

# prints CASE FILE WORD..: for these words the program prints what the file has, and nothing on standard error; its status is 0.
prints() {
    name=$1 expected=$2
    shift 2
    status=0
    tests/x86 run target/bin/report "$@" >"$made/printed" 2>&1 || status=$?
    [ $status = 0 ] && cmp "$made/printed" "$expected" && return
    echo "report: $name. Status $status. It printed:"
    head -n 7 "$made/printed"
    exit 1
}

# says CASE LINE WORD..: it prints this line alone.
says() {
    name=$1
    echo "$2" >"$made/line"
    shift 2
    prints "$name" "$made/line" "$@"
}

# The dairy's sheet and readings; ten packets that meet each of its rules and boxes.
sheet=tests/report/dairy.pair ten=tests/report/ten.packets earlier=tests/report/dairy.earlier later=tests/report/dairy.later

# totals CASE PACKETS NUMBER BEFORE AFTER FORWARDED GAIN: the report over a file of packets with the dairy's sheet and readings, of
# which three counters rolled over.
totals() {
    name=$1 packets=$2
    shift 2
    printf 'packets %s\nbefore %s\nafter %s\nforwarded %s\ngain %s\n' "$@" >"$made/totals"
    printf '0 11\n1 0\n2 4294967295\n3 1\n4 4294967295\n' >>"$made/totals"
    prints "$name" "$made/totals" "$sheet" "$packets" "$earlier" "$later"
}

# refused CASE NUMBER SHEET PACKETS EARLIER LATER
refused() {
    name=$1 number=$2
    shift 2
    says "$name" "refused $number" "$@"
}

# changed FILE OFFSET OCTAL: the file with one byte changed.
changed() {
    head -c "$2" "$1"
    printf '%b' "\\0$3"
    tail -c +"$(($2 + 2))" "$1"
}

# ten_times FILE: the file ten times over, in its place.
ten_times() {
    cat "$1" "$1" "$1" "$1" "$1" "$1" "$1" "$1" "$1" "$1" >"$made/tenfold"
    mv "$made/tenfold" "$1"
}

# in_pieces FILE: the file with pauses in the middle of a packet, a record, a number; a reader gets a piece at a time.
in_pieces() {
    head -c 7 "$1"
    sleep 0.1
    tail -c +8 "$1" | head -c 11
    sleep 0.1
    tail -c +19 "$1"
}

plant() {
    prints "$1" "$2" examples/plant.pair "$3" examples/plant.earlier examples/plant.later
}
plant 'an ordinary day' examples/plant.report examples/plant.packets
totals 'ten packets, counters that rolled over' $ten 10 28 50 6 14/25
cp "$made/totals" "$made/ten"
: >"$made/empty"
totals 'no packets' "$made/empty" 0 0 0 0 none
head -c 13 $ten >"$made/one"
totals 'one packet' "$made/one" 1 2 6 1 1/3

# A broken last packet.
for length in 1 12 14 129; do
    head -c $length $ten >"$made/broken"
    refused "$length bytes of packets" 3 $sheet "$made/broken" $earlier $later
done

# Packets in several blocks of 4,096, and on both sides of a block's end.
cp examples/plant.packets "$made/days"
ten_times "$made/days"
cat "$made/days" "$made/days" >"$made/days20"
{
    printf 'packets 18400\nbefore 409320\nafter 2282000\nforwarded 11680\ngain 10233/57050\n'
    tail -n +6 examples/plant.report
} >"$made/report20"
plant 'twenty days' "$made/report20" "$made/days20"
cp "$made/one" "$made/same"
for _ in 1 2 3 4; do ten_times "$made/same"; done
for number in 4095 4096 4097 8192 8193; do
    head -c $((13 * number)) "$made/same" >"$made/block"
    totals "$number packets" "$made/block" $number $((2 * number)) $((6 * number)) $number 1/3
    printf x >>"$made/block"
    refused "$number packets and a broken one" 3 $sheet "$made/block" $earlier $later
done

# 1,000,000 packets and more.
cp $ten "$made/million"
for _ in 1 2 3 4 5; do ten_times "$made/million"; done
totals '1,000,000 packets' "$made/million" 1000000 2800000 5000000 600000 14/25
cat "$made/million" "$made/one" >"$made/above"
refused '1,000,001 packets' 2 $sheet "$made/above" $earlier $later
printf x >>"$made/million"
refused '1,000,000 packets and a broken one' 3 $sheet "$made/million" $earlier $later
printf x >>"$made/above"
refused '1,000,001 packets and a broken one' 2 $sheet "$made/above" $earlier $later

# Packets without end are too many once 1,000,001 of them have come.
refused 'packets without end' 2 $sheet /dev/zero $earlier $later

# What comes through a pipe, a piece at a time.
in_pieces examples/plant.packets | plant 'packets in pieces' examples/plant.report /dev/stdin
in_pieces $sheet | prints 'a sheet in pieces' "$made/ten" /dev/stdin $ten $earlier $later
in_pieces $earlier | prints 'earlier readings in pieces' "$made/ten" $sheet $ten /dev/stdin $later
in_pieces $later | prints 'later readings in pieces' "$made/ten" $sheet $ten $earlier /dev/stdin

# Readings that are too short or too long.
head -c 19 $earlier >"$made/short"
head -c 16 $earlier >"$made/place_short"
{ cat $earlier && printf x; } >"$made/long"
{ cat $earlier && printf '\0\0\0\0'; } >"$made/place_long"
for wrong in empty short place_short long place_long million; do
    refused "earlier readings $wrong" 3 $sheet $ten "$made/$wrong" $later
    refused "later readings $wrong" 3 $sheet $ten $earlier "$made/$wrong"
done

# The longest list, 1,024 places: 31 single sources allowed, 24 denies of 32 boxes each, 256 own rules.
head -c 4096 /dev/zero >"$made/zeros"
{
    printf 'packets 0\nbefore 0\nafter 0\nforwarded 0\ngain none\n'
    seq 0 1023 | sed 's/$/ 0/'
} >"$made/longest"
prints 'readings of 1,024 places' "$made/longest" tests/report/longest.pair "$made/empty" "$made/zeros" "$made/zeros"
for length in 4092 4095 4097 4100; do
    head -c $length /dev/zero >"$made/other"
    refused "earlier readings of $length bytes" 3 tests/report/longest.pair "$made/empty" "$made/other" "$made/zeros"
    refused "later readings of $length bytes" 3 tests/report/longest.pair "$made/empty" "$made/zeros" "$made/other"
done

# The longest sheet, 28,742 bytes: 64 full denies with 12 boxes each where they give one, 256 own rules; and a byte more.
full='\0\0\0\0\377\377\377\377\0\0\0\0\377\377\377\377\0\0\377\377\0\0\377\377\0\377'
three=$full$full$full
{
    printf '\0\100' && printf "$full\0%.0s" $(seq 64)
    printf '\1\0' && printf "$full\1%.0s" $(seq 256)
    printf '\0\100' && printf "\0\014$three$three$three$three%.0s" $(seq 64)
} >"$made/largest"
[ "$(wc -c <"$made/largest")" = 28742 ]
refused 'the longest sheet' 8 "$made/largest" $ten $earlier $later
printf x >>"$made/largest"
refused 'a byte more than the longest sheet' 3 "$made/largest" $ten $earlier $later

# The check's refusals: the sheet's bytes are in docs/FORMATS.md, section 2.
changed $sheet 1 0 >"$made/no_rule"
refused 'a gate list without a rule' 2 "$made/no_rule" $ten $earlier $later
head -c 219 $sheet >"$made/cut"
{ cat $sheet && printf x; } >"$made/left_over"
for wrong in empty cut left_over; do refused "a sheet $wrong" 3 "$made/$wrong" $ten $earlier $later; done
cat $sheet "$made/million" >"$made/huge"
refused 'a sheet of 13 MB' 3 "$made/huge" $ten $earlier $later
changed $sheet 28 2 >"$made/action"
refused 'an action 2' 4 "$made/action" $ten $earlier $later
changed $sheet 81 376 >"$made/not_full"
refused 'a gate list that does not end in a full rule' 5 "$made/not_full" $ten $earlier $later
{ cat examples/refused.order && printf '\0\1\0\0'; } >"$made/pieces"
refused 'a deny of too many pieces' 6 "$made/pieces" $ten $earlier $later
changed $sheet 114 4 >"$made/boxes"
refused 'a group of 1,028 boxes' 7 "$made/boxes" $ten $earlier $later
changed $sheet 131 10 >"$made/stale"
refused 'a box that is not what A gives' 8 "$made/stale" $ten $earlier $later
refused 'a sheet of before W2' 8 tests/second/data/before_w2.pair examples/plant.packets examples/plant.earlier examples/plant.later

# Files that are not there, and folders, which open and cannot be read.
for name in "$made/not there" "$made/folder" ''; do
    says "sheet '$name'" "cannot read $name" "$name" $ten $earlier $later
    says "packets '$name'" "cannot read $name" $sheet "$name" $earlier $later
    says "earlier readings '$name'" "cannot read $name" $sheet $ten "$name" $later
    says "later readings '$name'" "cannot read $name" $sheet $ten $earlier "$name"
done

# Names longer than any path, of which 4,096 bytes are printed; and a file that is there, whose name is not UTF-8.
for length in 4095 4096 4097 6000; do
    name=$(head -c $length /dev/zero | tr '\0' x)
    says "a name of $length bytes" "cannot read $(printf %s "$name" | head -c 4096)" $sheet "$name" $earlier $later
done
name=$made/$(printf 'na\377me')
cp $ten "$name"
says 'a name that is not UTF-8' "cannot read $name" $sheet "$name" $earlier $later

# Two things wrong at once: all four are opened first, then come sheet, readings, packets.
says 'nothing there' 'cannot read 1' 1 2 3 4
says 'packets not there, a stale sheet' "cannot read $made/none" "$made/stale" "$made/none" $earlier $later
says 'later readings not there, a folder as sheet' "cannot read $made/none" "$made/folder" $ten $earlier "$made/none"
refused 'a stale sheet, short readings, too many packets' 8 "$made/stale" "$made/above" "$made/short" "$made/short"
refused 'a stale sheet, folders as readings and packets' 8 "$made/stale" "$made/folder" "$made/folder" "$made/folder"
refused 'short earlier readings, 1,000,001 packets' 3 $sheet "$made/above" "$made/short" $later
refused 'short later readings, 1,000,001 packets' 3 $sheet "$made/above" $earlier "$made/short"
refused 'short readings, a folder as packets' 3 $sheet "$made/folder" $earlier "$made/short"

# Another number of words than four.
usage='usage: report SHEET PACKETS EARLIER LATER'
says 'no words' "$usage"
says 'three words' "$usage" $sheet $ten $earlier
says 'five words' "$usage" $sheet $ten $earlier $later $later

rm -r "$made"
echo 'report: every case printed as stored'
