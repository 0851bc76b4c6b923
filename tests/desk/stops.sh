#!/usr/bin/env bash
# Stops the desk tool at every call that writes and looks at what is left: `current` is always a whole generation, the old or the new one;
# the text is the old or the new one, and never behind the current generation; a call that fails leaves nothing half done; and the next
# command works. A first apply and an edit are stopped in every way that tests/desk/stop.c knows; apply and undo, which run the same code,
# in two. Then two desks at once. The tool has to be built.
set -euo pipefail
cd "$(dirname "$0")/../.."
root=$PWD made=$PWD/target/desk_stops stop=$PWD/target/stop.so
rm -rf "$made"
mkdir -p "$made"
tests/x86 gcc -shared -fPIC -O2 -Wall -Wextra -Werror -o "$stop" tests/desk/stop.c

# An emulator hands the library to the program alone.
if [ "$(uname -m)" = x86_64 ]; then preload=LD_PRELOAD=$stop; else preload=QEMU_SET_ENV=LD_PRELOAD=$stop; fi

foldplover() {
    "$root/tests/x86" run "$root/target/foldplover" "$@"
}

# under SETTING.. -- WORD..: the tool with the library in front of it. Its status is left in $status, what it said in $made/said.
under() {
    local settings=()
    while [ "$1" != -- ]; do
        settings+=("$1")
        shift
    done
    shift
    status=0
    env "$preload" "${settings[@]}" "$root/tests/x86" run "$root/target/foldplover" "$@" >"$made/said" 2>&1 || status=$?
}

fault() {
    echo "stops: $scene, $way: $1"
    cat "$made/said"
    ls -lR . | head -n 40
    exit 1
}

# is_generation NUMBER LIKE: the folder has the files of the generation of that number in the tree LIKE; the times in `sum` may differ.
is_generation() {
    local file
    for file in policy.txt pair gate cell; do cmp -s "plant.d/$1/$file" "$2/plant.d/$1/$file" || return 1; done
    (cd "plant.d/$1" && sha256sum --quiet -c sum)
}

# look: the state that a stop left, between the trees before and after.
look() {
    local current='' old new
    old=$(readlink "$before/plant.d/current" || true)
    new=$(readlink "$after/plant.d/current")
    current=$(readlink plant.d/current || true)
    case $current in
    "$new") is_generation "$new" "$after" || fault 'the new generation is not whole' ;;
    "$old") [ -z "$old" ] || is_generation "$old" "$before" || fault 'the old generation is not whole' ;;
    *) fault "current is $current" ;;
    esac
    if cmp -s plant.txt "$after/plant.txt"; then text=new; else text=old; fi
    [ $text = new ] || cmp -s plant.txt "$before/plant.txt" || fault 'the text is neither the old nor the new one'
    [ "$current" != "$new" ] || [ $text = new ] || fault 'the text is behind the current generation'
    if [ "$current" = "$new" ]; then state=new; else state=old; fi
}

# The next command takes what is there as it is, and its generation has the text.
goes_on() {
    foldplover apply plant.txt >"$made/said" 2>&1 || fault 'the next apply fails'
    cmp -s plant.txt plant.d/current/policy.txt || fault 'the next apply does not take the text'
    (cd plant.d/current && sha256sum --quiet -c sum) || fault 'the next generation is not whole'
}

# Ways to stop; behind `lose` what the disk kept of what was not synced: nothing, the newest, the two newest, all.
all_ways='fail fail-on cut torn lose:0 lose:1 lose:3 lose:-1'

# each_stop SCENE WAYS WORD..: the command on the tree $made/SCENE, stopped at each call in each of these ways.
each_stop() {
    local count last n ways=$2
    scene=$1 before=$made/$1 after=$made/$1.after way='not stopped'
    shift 2
    rm -rf "$after"
    cp -a "$before" "$after"
    cd "$after"
    under STOP_COUNT="$made/count" -- "$@"
    [ $status = 0 ] || fault 'the command fails'
    count=$(cat "$made/count")
    for one in $ways; do
        how=${one%:*} keep=${one#*:} last=$count
        # The power may also fail when the command has ended.
        [ $how != lose ] || last=$((count + 1))
        for n in $(seq $last); do
            way="$one at $n of $count"
            one_stop "$@"
        done
    done
    stops=$((stops + count))
    cd "$root"
}

one_stop() {
    rm -rf "$made/tree"
    cp -a "$before" "$made/tree"
    cd "$made/tree"
    under STOP_AT="$n" STOP_HOW=$how STOP_KEEP="$keep" -- "$@"
    look
    case $how:$status in
    fail:5 | fail-on:5)
        [ $state = old ] || grep -q 'the disk did not confirm it' "$made/said" || fault 'failed, and yet the new generation'
        if [ "$how" = fail ]; then
            [ $state = $text ] || cmp -s "$before/plant.txt" "$after/plant.txt" || fault 'the text was not put back'
            [ -z "$(find . -name '*new-*')" ] || fault 'something half done was left'
            [ $state = new ] || [ ! -e "plant.d/$(readlink "$after/plant.d/current")" ] || fault 'the generation was left'
        fi
        goes_on
        ;;
    lose:0) [ $state = new ] || fault 'done, and yet lost' ;;
    cut:99 | torn:99 | lose:99) goes_on ;;
    *) fault "status $status" ;;
    esac
    runs=$((runs + 1))
}

# What stands before each command: a text; a generation and a text that was changed; two generations.
runs=0 stops=0
mkdir "$made/first"
cp examples/dairy.txt "$made/first/plant.txt"
cp -a "$made/first" "$made/edit"
(cd "$made/edit" && foldplover apply plant.txt >"$made/said")
cp -a "$made/edit" "$made/apply"
sed -i 's/^deny .*/deny to 0-39 proto tcp/' "$made/apply/plant.txt"
cp -a "$made/edit" "$made/undo"
(cd "$made/undo" && foldplover del plant.txt 4 >"$made/said")

each_stop first "$all_ways" apply plant.txt
each_stop edit "$all_ways" add plant.txt 5 allow to 20 proto tcp
each_stop apply 'cut lose:0' apply plant.txt
each_stop undo 'cut lose:0' undo plant.txt

# Lists that are copied: each is the old or the new one.
scene=lists before=$made/lists way='not stopped'
cp -a "$made/edit" "$before"
cd "$before"
foldplover lists plant.txt -o lists >"$made/said"
cp -a lists ../lists.old
foldplover add plant.txt 5 allow to 20 proto tcp >"$made/said"
cp -a "$before" "$made/lists.new"
cd "$made/lists.new"
under STOP_COUNT="$made/count" -- lists plant.txt -o lists
for how in fail cut torn lose; do
    for n in $(seq "$(cat "$made/count")"); do
        way="$how at $n"
        rm -rf "$made/tree"
        cp -a "$before" "$made/tree"
        cd "$made/tree"
        under STOP_AT="$n" STOP_HOW=$how -- lists plant.txt -o lists
        case $how:$status in
        fail:5 | cut:99 | torn:99 | lose:99) ;;
        *) fault "status $status" ;;
        esac
        for list in cell gate; do
            cmp -s lists/$list.list ../lists.old/$list.list || cmp -s lists/$list.list ../lists.new/lists/$list.list ||
                fault "$list.list is neither the old nor the new one"
        done
        runs=$((runs + 1))
    done
done

# Two desks. Another one does something while this one works: `beside WAY CALLS HOOK MESSAGE` runs the hook so many calls behind the
# rename that takes the number.
beside() {
    local at
    scene='two desks' way=$1
    rm -rf "$made/tree" "$made/trace"
    cp -a "$made/edit" "$made/tree"
    cd "$made/tree"
    under STOP_TRACE="$made/trace" -- add plant.txt 5 allow to 20 proto tcp
    at=$(grep -n 'rename .*/0002$' "$made/trace" | cut -d : -f 1)
    rm -rf "$made/tree"
    cp -a "$made/edit" "$made/tree"
    cd "$made/tree"
    under STOP_AT=$((at + $2)) STOP_HOW=hook STOP_HOOK="$3" -- add plant.txt 5 allow to 20 proto tcp
    [ $status = 5 ] && grep -q "$4" "$made/said" || fault "status $status"
    is_generation 0001 "$made/edit" || fault 'the old generation is not whole'
    [ ! -e plant.d/0002/sum ] && [ "$(readlink plant.d/current)" != 0002 ] || fault 'the new generation is there'
}
beside 'the number is taken' 0 'mkdir plant.d/0002 && echo another >plant.d/0002/pair' 'another desk made this generation first'
cmp plant.txt "$made/edit/plant.txt"
grep -q another plant.d/0002/pair
# The text is looked at for the last time right before the new one takes its place: open, write, sync and mode of that one come before.
for calls in 1 2 3 4 5; do
    beside "the text is saved, $calls" $calls 'echo "# saved" >>plant.txt' 'was changed by somebody else meanwhile'
    [ "$(tail -n 1 plant.txt)" = '# saved' ] && [ ! -e plant.d/0002 ] || fault 'the saved text or the folder'
done
beside 'the very same text is saved' 1 'sed -i "5i allow to 20 proto tcp" plant.txt' 'was changed by somebody else meanwhile'
grep -q 'allow to 20 proto tcp' plant.txt || fault 'the saved text was taken back'
beside 'the link is swapped' 1 'cp -a plant.d/0001 plant.d/0009 && ln -sfn 0009 plant.d/current' 'another desk made a generation meanwhile'

# A text that is saved between its reading and the lock.
scene='two desks' way='the text is saved before the lock'
rm -rf "$made/tree"
cp -a "$made/first" "$made/tree"
cd "$made/tree"
under STOP_AT=1 STOP_HOW=hook STOP_HOOK='echo "# saved" >>plant.txt' -- apply plant.txt
[ $status = 5 ] && grep -q 'was changed by somebody else meanwhile' "$made/said" || fault "status $status"

# A text that an editor saved, and a folder that a command which was cut off made, may not be on the disk yet: both are synced.
scene='what others wrote' way='is synced'
rm -rf "$made/tree" "$made/trace"
cp -a "$made/first" "$made/tree"
cd "$made/tree"
mkdir plant.d
under STOP_TRACE="$made/trace" -- apply plant.txt
link=$(grep -n 'rename .*/current$' "$made/trace" | cut -d : -f 1)
for name in '/plant.txt' '/tree'; do
    head -n "$link" "$made/trace" | grep -q "fsync .*$name\$" || fault "$name is not synced before the link"
done

# A command that holds the plant keeps others out.
rm -rf "$made/tree"
cp -a "$made/edit" "$made/tree"
cd "$made/tree"
scene='two desks' way='the plant is locked'
status=0
flock plant.d/lock "$root/tests/x86" run "$root/target/foldplover" add plant.txt 5 allow to 20 proto tcp >"$made/said" 2>&1 || status=$?
[ $status = 5 ] && grep -q 'another foldplover is at work on this plant' "$made/said" || fault "status $status"

# Both at once, again and again: each generation is of one desk, and no edit is lost.
scene='two desks' way='at once'
rm -rf "$made/tree"
cp -a "$made/edit" "$made/tree"
cd "$made/tree"
done=0
for round in 1 2 3 4 5 6 7 8; do
    foldplover add plant.txt 5 "allow to $round proto tcp" >"$made/one" 2>&1 &
    one=0 two=0
    foldplover add plant.txt 5 "allow to 2$round proto tcp" >"$made/said" 2>&1 || two=$?
    wait $! || one=$?
    for status in $one $two; do
        case $status in
        0) done=$((done + 1)) ;;
        5) ;;
        *) fault "status $status" ;;
        esac
    done
done
[ "$(grep -c 'proto tcp$' plant.txt)" = "$done" ] && [ "$(readlink plant.d/current)" = "$(printf %04d $((done + 1)))" ] ||
    fault "$done edits were done"
cmp plant.txt plant.d/current/policy.txt
cd "$root"
rm -rf "$made"
echo "stops: $stops calls that write, $runs times stopped, and always a whole generation"
