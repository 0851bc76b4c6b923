#!/usr/bin/env bash
# Builds the desk tool and tests it from outside. First on stored cases: each script in tests/desk/cases runs in a folder of its own, and
# what it prints has to be the same byte for byte as its .out; the first that differs is named. Then the week of docs/DESK.md, stops at
# each call that writes, libraries with faults, the tool's own tests, and what desk/install puts in place. `tests/desk.sh --store` writes
# the .out files anew instead, for whoever changes a message on purpose: look at `git diff` then.
set -euo pipefail
cd "$(dirname "$0")/.."
export LC_ALL=C
# Whoever has set it for himself: the case of colours needs them.
unset NO_COLOR
case "$#$*" in
0) store= ;;
1--store) store=yes ;;
*)
    echo 'usage: tests/desk.sh [--store]'
    exit 4
    ;;
esac

# Whoever has just built the tool says so.
[ "${DESK_BUILT:-}" ] || desk/build

root=$PWD made=$PWD/target/desk_cases cases=tests/desk/cases
export root made
rm -rf "$made"
mkdir -p "$made"

# printed NAME: runs a case in its folder; what it prints is left in NAME.printed.
printed() {
    mkdir "$made/$1"
    (cd "$made/$1" && bash -euo pipefail -c '. "$root/tests/desk/cases.sh"; . "$root/tests/desk/cases/$1.sh"' case "$1") \
        >"$made/$1.printed" 2>&1 </dev/null
}

# A stored output without a script would never be compared again.
for stored in "$cases"/*.out; do
    if [ -e "$stored" ] && [ ! -e "${stored%.out}.sh" ]; then
        echo "desk: $stored has no script"
        exit 1
    fi
done

count=0
for script in "$cases"/*.sh; do
    name=$(basename "$script" .sh)
    if ! printed "$name"; then
        echo "desk: $name ended early. It printed last:"
        tail -n 10 "$made/$name.printed"
        exit 1
    fi
    if [ "$store" ]; then
        cp "$made/$name.printed" "$cases/$name.out"
    elif ! cmp -s "$cases/$name.out" "$made/$name.printed"; then
        echo "desk: $name differs from what is stored"
        diff -u --label stored --label printed "$cases/$name.out" "$made/$name.printed" | head -n 40 || true
        exit 1
    fi
    count=$((count + 1))
done
rm -r "$made"
if [ "$store" ]; then
    echo "desk: $count cases stored anew; nothing was compared"
    exit 0
fi
echo "desk: $count cases as stored"

tests/desk/week.sh
tests/desk/stops.sh
tests/desk/guards.sh
tests/x86 rustc -O --test --edition 2021 -L native=target/staticlib -o target/desk_tests desk/main.rs
# What commands print in them is no news.
if ! tests/x86 run target/desk_tests >target/desk_tests.log 2>&1; then
    cut -c 1-300 target/desk_tests.log | tail -n 60
    exit 1
fi
grep -a '^test result: ' target/desk_tests.log

# What desk/install puts in place works from there.
prefix=$PWD/target/desk_installed
rm -rf "$prefix"
DESK_BUILT=yes desk/install "$prefix" >target/desk_installed.log
for file in bin/foldplover-report lib/libfoldplover.a share/man/man1/foldplover.1; do [ -s "$prefix/$file" ]; done
tests/x86 run "$prefix/bin/foldplover" check examples/dairy.txt | tail -n 1
tests/x86 run "$prefix/bin/foldplover-plan" <examples/dairy.order | cmp - examples/dairy.out
if command -v pkg-config >/dev/null; then
    flags=$(PKG_CONFIG_PATH=$prefix/lib/pkgconfig pkg-config --cflags --libs foldplover)
    # shellcheck disable=SC2086
    tests/x86 gcc -o target/desk_linked examples/origin.c $flags
    tests/x86 run target/desk_linked examples/plant.order 10.10.4.2 10.30.1.17 50000 502 6 | head -n 1
fi
rm -r "$prefix"
