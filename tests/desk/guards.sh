#!/usr/bin/env bash
# The tool looks twice at what is proved not to happen. Here it is linked with the second program's mirror in the place of the library,
# which has faults on purpose (tests/second/mirror): each has to stop the tool, and nothing may be written.
set -euo pipefail
cd "$(dirname "$0")/../.."
made=$PWD/target/desk_guards
rm -rf "$made"
mkdir -p "$made/plant"
rustc -O --edition 2021 --crate-type staticlib -o "$made/libfoldplover.a" tests/second/lib.rs
rustc -O --edition 2021 -L native="$made" -o "$made/foldplover" desk/main.rs
cp examples/dairy.txt "$made/plant/plant.txt"
cd "$made/plant"

# Without a fault it does what the library does.
"$made/foldplover" apply plant.txt >"$made/said"
"$made/foldplover" add plant.txt 5 deny from 10.0.0.1 dport 23 >"$made/said"
cp -a . "$made/before"

# stops FAULT MESSAGE WORD..
stops() {
    local fault=$1 message=$2 status=0
    shift 2
    FOLDPLOVER_BROKEN=$fault "$made/foldplover" "$@" >"$made/said" 2>&1 || status=$?
    if [ $status != 5 ] || ! grep -q "$message" "$made/said" || ! diff -r --no-dereference . "$made/before" >"$made/differs"; then
        echo "guards: $fault: status $status"
        cat "$made/said" "$made/differs"
        exit 1
    fi
    count=$((count + 1))
}
count=0
moved='is not what a fresh move of the text gives'
stops stale-after-allow-delete "$moved" del plant.txt 4
stops edit-does-nothing "$moved" add plant.txt 5 deny dport 24
stops edit-does-nothing "$moved" set plant.txt 6 deny to 0-39 proto tcp
stops edit-does-nothing "$moved" del plant.txt 5
stops lookup-skips-source 'the search for packets and the lookups in the lists do not agree' set plant.txt 5 deny from 10.0.0.9 dport 23
stops lookup-place-off 'origin and lookup do not agree' why plant.txt 10.0.0.1:1 0.0.0.5:80 tcp
stops lookup-place-off 'origin and lookup do not agree' why plant.txt 10.0.0.9:1 10.0.0.5:80 tcp
stops origin-group-number 'origin and lookup do not agree' why plant.txt 10.0.0.1:1 0.0.0.5:80 tcp
cd ../../..
rm -rf "$made"
echo "guards: $count faults of a library stop the tool"
