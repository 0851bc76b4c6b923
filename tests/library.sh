#!/bin/sh
# Builds the static library and tests it from outside: the C surface and a stored sheet of before W2 as C11 and as C++, then the
# driver of the second program, which holds every call against the model, with the two example programs between them. Fails with the
# first that fails.
set -eu
cd "$(dirname "$0")/.."
library=target/staticlib/libfoldplover.a
flags='-Wall -Wextra -Wpedantic -Werror -Iinclude'
tests/build library

for test in surface before; do
    tests/x86 gcc -std=c11 $flags -o target/$test tests/c/$test.c $library
    tests/x86 g++ -std=c++17 $flags -o target/$test++ -x c++ tests/c/$test.c -x none $library
done
tests/x86 run target/surface
tests/x86 run target/surface++
tests/x86 run target/before tests/second/data/before_w2.pair
tests/x86 run target/before++ tests/second/data/before_w2.pair

# The desk example: what it prints, its status, the lengths of both lists, the gate list's bytes and the plant's pair sheet; a refused
# sheet writes none.
tests/x86 gcc -std=c11 $flags -o target/desk examples/desk.c $library
rm -f target/*.gate target/*.cell target/*.pair
desk() {
    status=0
    tests/x86 run target/desk "examples/$1.order" "target/$1.gate" "target/$1.cell" "target/$1.pair" >target/desk.txt || status=$?
    echo "$2" | cmp - target/desk.txt
    [ "$status" = "$3" ]
}
desk dairy 'gate 29 bytes, cell 137 bytes' 0
desk plant 'gate 29 bytes, cell 5105 bytes' 0
desk refused 'refused 6' 1
for name in dairy:137 plant:5105; do
    printf '\0\1\0\0\0\0\377\377\377\377\0\0\0\0\377\377\377\377\0\0\377\377\0\0\377\377\0\377\1' | cmp - "target/${name%:*}.gate"
    [ "$(wc -c <"target/${name%:*}.cell")" = "${name#*:}" ]
done
cmp target/plant.pair examples/plant.pair
for list in gate cell pair; do [ ! -e target/refused.$list ]; done

# The origin example: the packet that README tells of, one that an own rule forwards, one that no rule has, a refused sheet, and
# words that are no packet or no file.
tests/x86 gcc -std=c11 $flags -o target/origin examples/origin.c $library
origin() {
    words=$1 status=0
    # shellcheck disable=SC2086
    tests/x86 run target/origin $words >target/origin.txt 2>target/origin.log || status=$?
    printf "$2" | cmp - target/origin.txt
    [ "$status" = "$3" ]
}
any='0.0.0.0-255.255.255.255'
origin 'examples/plant.order 10.10.4.2 10.30.1.17 50000 502 6' \
    "dropped by gate rule 12 (counted from 0), its box 0; place 7 of the cell list\ndeny $any $any 0-65535 502-502 6-6\n" 0
origin 'examples/plant.order 10.20.8.3 10.30.1.17 50000 102 6' \
    "forwarded by own rule 3 (counted from 0); place 180 of the cell list\nallow $any 10.30.1.0-10.30.1.255 0-65535 0-65535 6-6\n" 0
origin 'examples/plant.order 10.20.8.3 10.30.1.17 50000 102 256' "no rule: a number is above its field's highest\n" 1
origin 'examples/refused.order 10.20.8.3 10.30.1.17 50000 102 6' 'refused 6\n' 1
origin 'examples/plant.order 10.20.8 10.30.1.17 50000 102 6' '' 2
origin 'examples/plant.order 10.20.8.3 10.30.1.17 50000 -1 6' '' 2
origin 'examples/none.order 10.20.8.3 10.30.1.17 50000 102 6' '' 2

tests/x86 rustc -O --edition 2021 --cfg library -L native=target/staticlib -o target/drive tests/second/main.rs
# 20,000 cases, in two halves at a time. Each half's report has to end with the words that every answer was met in it.
drive() {
    tests/x86 run target/drive drive 10000 1 "$1" >"target/drive.$1.txt" 2>"target/drive.$1.log" &&
        tail -n 1 "target/drive.$1.txt" | grep -q '^10000 cases, .* no difference, every answer met$' && return
    cut -c 1-400 "target/drive.$1.txt" | tail -n 20
    return 1
}
drive 10000 &
status=0
drive 0 || status=1
wait $! || status=1
tail -q -n 1 target/drive.0.txt target/drive.10000.txt
exit $status
