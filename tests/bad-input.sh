#!/bin/sh
# Tries bin/play and bin/make-match with bad input and bad use: each try must end within five seconds, with the status and the lines that are wanted.
# Run as: tests/bad-input.sh
root=$(dirname -- "$(dirname -- "$(readlink -f -- "$0")")")
work=$(mktemp -d) || exit 1
trap 'rm -rf "$work"' EXIT
passed=0
failed=0

# Counts a try, and says which one failed and what came of it.
count() {
    if [ "$1" = yes ]; then
        passed=$((passed + 1))
    else
        failed=$((failed + 1))
        printf 'failed: %s: status %s, %s lines out, %s lines err\n' "$2" "$status" "$out" "$err"
    fi
}

# Runs a command with the given file as standard input; sets status, and how many lines it wrote (a last one without its end counts).
run() {
    from=$1
    shift
    timeout 5 "$@" <"$from" >"$work/out" 2>"$work/err"
    status=$?
    out=$(grep -a -c '' "$work/out")
    err=$(grep -a -c '' "$work/err")
}

# One line on standard error, nothing else, status 1.
complains() {
    run "$@"
    verdict=no
    [ "$status" -eq 1 ] && [ "$err" -eq 1 ] && [ ! -s "$work/out" ] && verdict=yes
    count "$verdict" "$*"
}

# The given line on standard output, nothing else, status 0.
answers() {
    line=$1
    shift
    run "$@"
    verdict=no
    [ "$status" -eq 0 ] && [ "$out" -eq 1 ] && [ "$err" -eq 0 ] && [ "$(cat "$work/out")" = "$line" ] && verdict=yes
    count "$verdict" "$* ($line wanted)"
}

# Lines on standard output only, as many as given, status 0.
prints() {
    lines=$1
    shift
    run "$@"
    verdict=no
    [ "$status" -eq 0 ] && [ "$out" -eq "$lines" ] && [ "$err" -eq 0 ] && verdict=yes
    count "$verdict" "$* ($lines lines wanted)"
}

# A match file that play plays, or a complaint; the first argument is the status that a complaint has.
makes_or_complains() {
    complaint=$1
    shift
    run "$@"
    verdict=no
    if [ "$err" -gt 0 ]; then
        [ "$status" -eq "$complaint" ] && [ "$err" -eq 1 ] && [ ! -s "$work/out" ] && verdict=yes
    elif [ "$status" -eq 0 ]; then
        cp "$work/out" "$work/made"
        run "$work/made" "$root/crates/play/out/play"
        [ "$status" -eq 0 ] && [ "$out" -ge 2 ] && [ "$err" -eq 0 ] && verdict=yes
    fi
    count "$verdict" "$*"
}

# A shell command that ends with one line on standard error and status 1.
fails() {
    timeout 5 sh -c "$1" play "$play" "$make" 2>"$work/err" >"$work/out"
    status=$?
    out=$(grep -a -c '' "$work/out")
    err=$(grep -a -c '' "$work/err")
    verdict=no
    [ "$status" -eq 1 ] && [ "$err" -eq 1 ] && [ ! -s "$work/out" ] && verdict=yes
    count "$verdict" "$1"
}

play=$root/bin/play
make=$root/bin/make-match
none=/dev/null

# Both programs are built before anything is timed.
if ! "$play" "$root/examples/imp.match" >"$work/out" || ! "$make" "$root/examples/imp.txt" >"$work/out"; then
    printf 'failed: examples/imp\n0 passed, 1 failed\n'
    exit 1
fi

cd "$work" || exit 1
: >empty
printf 'This is no match file.\n' >text
head -c 10000000 /dev/zero >huge
head -c 32768 /dev/zero >full
mkdir directory
cp "$root/examples/imp.match" 'a match file'
cp "$root/examples/imp.txt" 'a text'
printf '8000 warrior Imp - 0 1 6 1 1 0' >short
printf '8000 warrior Imp - 0 1 6 1 1 0 2147483648\n' >large
printf '8000 imp - 0 1 6 1 1 0 1\n' >unannounced
printf '8000\n' >sizeonly
printf '0 warrior Imp - 0 1 6 1 1 0 1\n' >nocore
printf '8000 warrior Imp - 0 19 6 1 1 0 1\n' >opcode
yes 'warrior - - 0 0 4 1 1 0 0' | head -n 17 | sed '1s/^/8000 /' >seventeen
yes '0 4 1 1 0 0' | head -n 2800 | sed '1s/^/8000 warrior - - 0 /' >toolong

# What play is given.
answers '13 0' "$none" "$play" empty
answers '13 0' empty "$play"
answers '13 0' "$none" "$play"
answers '13 0' "$none" "$play" text
answers '13 0' text "$play"
answers '13 0' "$none" "$play" full
answers '13 32768' "$none" "$play" huge
answers '13 32768' huge "$play"
answers '13 0' "$none" "$play" "$root/examples/imp.txt"
complains "$none" "$play" directory
complains "$none" "$play" missing
complains "$none" "$play" ''
complains "$none" "$play" -x
complains "$none" "$play" 'a match file' -x
prints 1 "$none" "$play" --help
prints 2 "$none" "$play" 'a match file'
prints 2 'a match file' "$play"
prints 6 "$none" "$play" 'a match file' "$root/examples/imp.match"

# What make-match is given.
complains "$none" "$make" empty
complains empty "$make"
complains "$none" "$make" text
complains "$none" "$make" huge
complains huge "$make"
complains "$none" "$make" 'a match file'
complains "$none" "$make" directory
complains "$none" "$make" missing
complains "$none" "$make" ''
complains "$none" "$make" -x
complains "$none" "$make" 'a text' 'a text'
prints 1 "$none" "$make" --help
makes_or_complains 1 "$none" "$make" 'a text'
makes_or_complains 1 'a text' "$make"
complains "$none" "$make" "$root/examples/refused.txt"
for file in short large unannounced sizeonly nocore opcode seventeen toolong; do
    complains "$none" "$make" "$file"
done

# Output that does not arrive, and input that cannot be read.
fails '"$1" "a match file" >/dev/full'
fails '"$1" <"a match file" >/dev/full'
fails '"$1" "a match file" "a match file" >/dev/full'
fails '"$1" --help >/dev/full'
fails '"$1" "a match file" >&-'
fails '"$1" <directory'
fails '"$1" <&-'
fails '"$2" "a text" >/dev/full'
fails '"$2" <"a text" >/dev/full'
fails '"$2" "a text" >&-'
fails '"$2" <directory'
fails '"$2" <&-'
prints 2 "$none" sh -c '"$1" "a match file" <&-' play "$play"

# A file that may not be read; there is none for root.
cp 'a text' unreadable
chmod 0 unreadable
if [ ! -r unreadable ]; then
    complains "$none" "$play" unreadable
    complains "$none" "$make" unreadable
fi

# No rt, and nothing built.
mkdir elsewhere path
cp -r "$root/bin" elsewhere/bin
for tool in basename dirname readlink; do
    ln -s "$(command -v "$tool")" "path/$tool"
done
for tool in play make-match; do
    complains "$none" env PATH="$work/path" "elsewhere/bin/$tool" 'a text'
done

# Every example, cut at every 7th byte, given to the programs themselves: they end with status 0, as every such program does.
for example in "$root"/examples/*.match; do
    size=$(wc -c <"$example")
    at=0
    while [ "$at" -lt "$size" ]; do
        head -c "$at" "$example" >cut
        answers "13 $at" cut "$root/crates/play/out/play"
        at=$((at + 7))
    done
done
for example in "$root"/examples/*.txt; do
    size=$(wc -c <"$example")
    at=0
    while [ "$at" -lt "$size" ]; do
        head -c "$at" "$example" >cut
        makes_or_complains 0 cut "$root/crates/make_match/out/make_match"
        at=$((at + 7))
    done
done

printf '%s passed, %s failed\n' "$passed" "$failed"
[ "$failed" -eq 0 ]
