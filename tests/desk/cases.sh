# What the case scripts have: the tool as `foldplover`, and other commands that print what they did. tests/desk.sh sets `root`, the
# project's folder, and `made`, a folder for what is kept aside; a case stands in a fresh folder of its own. Cases print nothing that
# changes from run to run: no paths of the machine, no times of day, no process numbers.

# The tool as it is, for pipes and redirections.
tool() {
    "$root/tests/x86" run "$root/target/foldplover" "$@"
}

# Times of day, and the numbers of processes in the names of files that are there for a moment.
masked() {
    sed -E 's/[0-9]{4}-[0-9]{2}-[0-9]{2} [0-9]{2}:[0-9]{2}:[0-9]{2} UTC/TIME/g; s/new-[0-9]+/new-PID/g'
}

# Words as a person would type them, in quotes where the shell needs them. Bytes that a terminal would act on are written out.
typed() {
    printf '$'
    for word; do
        case $word in
        *[![:print:]]*) printf ' %q' "$word" ;;
        '' | *[!A-Za-z0-9@.,:/_=+-]*) printf " '%s'" "$word" ;;
        *) printf ' %s' "$word" ;;
        esac
    done
    printf '\n'
}

# foldplover WORD..: what was typed, standard output, standard error with `! ` in front of its lines, the status if it is not 0. A
# status is something to print here, never a failure of the case.
foldplover() {
    typed foldplover "$@"
    status=0
    tool "$@" >"$made/out" 2>"$made/err" || status=$?
    masked <"$made/out"
    masked <"$made/err" | sed 's/^/! /'
    [ $status = 0 ] || echo "= $status"
}

# run COMMAND WORD..: another command with what it prints, and its status if that is not 0.
run() {
    typed "$@"
    status=0
    "$@" >"$made/out" 2>&1 || status=$?
    cat "$made/out"
    # A last line without an end would have the next command on it.
    [ -z "$(tail -c 1 "$made/out")" ] || printf '\n(its last line has no end)\n'
    [ $status = 0 ] || echo "= $status"
}

# quietly WORD..: the tool, for what a case needs done before it begins. It has to succeed.
quietly() {
    tool "$@" >"$made/out" 2>&1 || { cat "$made/out"; exit 1; }
}

# Everything under the case's folder in one sum: names, links and bytes.
tree() {
    { find . -type l -printf '%p %l\n' | sort; find . -type d | sort; find . -type f -print0 | sort -z | xargs -0 sha256sum; } | sha256sum
}

# unchanged TREE: whether all is as it was when `tree` gave this.
unchanged() {
    if [ "$(tree)" = "$1" ]; then echo '(nothing on the disk has changed)'; else echo '(THE DISK HAS CHANGED)'; fi
}

# changed FILE OFFSET: the file with another byte at this offset.
changed() {
    chmod u+w "$1"
    byte=$(od -An -tu1 -j "$2" -N 1 "$1" | tr -d ' ')
    printf '%b' "\\0$(printf %o $(((byte + 1) % 256)))" | dd of="$1" bs=1 seek="$2" conv=notrunc status=none
}
