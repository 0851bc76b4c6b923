#!/usr/bin/env bash
# Runs docs/DESK.md: each line of its blocks that begins with `$ ` is a command, and what stands below it is what it prints. Times and the
# numbers of processes may differ. With --store the page gets what is printed now. The tool has to be built.
set -euo pipefail
cd "$(dirname "$0")/../.."
root=$PWD page=docs/DESK.md made=$PWD/target/desk_week
rm -rf "$made"
mkdir -p "$made/bin" "$made/plant"
printf '#!/bin/sh\nexec "%s/tests/x86" run "%s/target/foldplover" "$@"\n' "$root" "$root" >"$made/bin/foldplover"
chmod +x "$made/bin/foldplover"
cp examples/plant.* "$made/plant"
cp examples/labels/plant.txt "$made/plant"

# The page with what its commands print now.
printed() {
    local line block=no status=0
    while IFS= read -r line; do
        if [ "$line" = '```' ]; then
            [ $block = yes ] && block=no || block=yes
        elif [ $block = yes ] && [ "${line#\$ }" = "$line" ]; then
            continue
        fi
        printf '%s\n' "$line"
        if [ $block = yes ] && [ "$line" != '```' ]; then
            # The status of the command before is what `$?` means in the page.
            (cd "$made/plant" && PATH=$made/bin:$PATH bash -c "(exit $status); ${line#\$ }" 2>&1) || { status=$? && continue; }
            status=0
        fi
    done <"$page"
}

masked() {
    sed -E 's/[0-9]{4}-[0-9]{2}-[0-9]{2} [0-9:]{8} UTC/TIME/; s/new-[0-9]+/new-PROCESS/' "$1"
}

printed >"$made/page"
if [ "${1:-}" = --store ]; then
    cp "$made/page" "$page"
else
    diff -u <(masked "$page") <(masked "$made/page")
    echo "week: $(grep -c '^\$ ' "$page") commands of $page print what it says"
fi
rm -rf "$made"
