#!/bin/sh
# Builds the static library and the examples over it, and compares what they print: the two that play with bin/play for every file in examples/ and for a few bad ones, and with what the program plays must write for each of its files; the board with its committed output.
# Then makes 2,000 lists of place, start and step, damaged records among them, and compares every byte with a model after each call (tools/placing).
# Then loads 2,000 matches, damaged ones among them, each in one call, and compares every byte with a model and with the places and starts made one by one (tools/match_load).
# Then makes 2,000 calls of fresh, step and run with read, write and process limits, damaged records among them, and compares every byte with a model (tools/limits).
# Then places an instruction without a modifier for each opcode, A mode and B mode byte, and compares it with a model (tools/defaults).
# Run as: tests/library.sh. Needs rt, gcc, g++, cargo and python3; no network.
root=$(dirname -- "$(dirname -- "$(readlink -f -- "$0")")")
work=$(mktemp -d) || exit 1
trap 'rm -rf "$work"' EXIT
cd -- "$root" || exit 1

# Runs a command, and stops with what it wrote where it fails.
must() {
    if ! "$@" >"$work/log" 2>&1 </dev/null; then
        cat "$work/log" >&2
        printf 'failed: %s\n' "$*" >&2
        exit 1
    fi
}

must bin/library
strict='-Wall -Wextra -Wpedantic -Werror -Iinclude'
must gcc -std=c11 -O2 $strict -o "$work/play-c" examples/c/play.c target/staticlib/libsumacadze.a
must gcc -std=c11 -O1 -g -fsanitize=address,undefined $strict -o "$work/play-c-checked" examples/c/play.c target/staticlib/libsumacadze.a
must gcc -std=c11 -O2 $strict -o "$work/board" examples/c/board.c target/staticlib/libsumacadze.a
must gcc -std=c11 -O1 -g -fsanitize=address,undefined $strict -o "$work/board-checked" examples/c/board.c target/staticlib/libsumacadze.a
must gcc -std=c11 -O2 $strict -Itools/match_load -o "$work/call-placing" tools/placing/call.c target/staticlib/libsumacadze.a
must gcc -std=c11 -O2 $strict -o "$work/call" tools/match_load/call.c target/staticlib/libsumacadze.a
must gcc -std=c11 -O2 $strict -Itools/match_load -o "$work/call-limits" tools/limits/call.c target/staticlib/libsumacadze.a
must gcc -std=c11 -O2 $strict -o "$work/call-defaults" tools/defaults/call.c target/staticlib/libsumacadze.a
must g++ -std=c++11 -fsyntax-only $strict -x c++ include/sumacadze.h
export CARGO_TARGET_DIR="$work/cargo"
must cargo build --quiet --release --offline --manifest-path examples/rust/Cargo.toml
must cargo test --quiet --offline --manifest-path rust/Cargo.toml

# Files that are refused: none at all, one of the largest length and one longer, and an M that is too large for play and for a machine.
: >"$work/empty"
head -c 32768 /dev/zero >"$work/largest"
head -c 32769 /dev/zero >"$work/longer"
for size in '\101\037' '\377\377' '\000\000' '\001\000'; do
    { printf '\001'"$size"'\000'; tail -c +5 examples/imp.match; } >"$work/size-$(printf '%s' "$size" | tr -d '\\')"
done

compared=0
failed=0
for file in examples/* "$work"/empty "$work"/largest "$work"/longer "$work"/size-*; do
    [ -f "$file" ] || continue
    bin/play <"$file" >"$work/wanted"
    for program in "$work/play-c" "$work/play-c-checked" "$work/cargo/release/play"; do
        compared=$((compared + 2))
        "$program" "$file" >"$work/named" && cmp -s "$work/wanted" "$work/named" || { failed=$((failed + 1)); printf 'differs: %s %s\n' "$program" "$file"; }
        "$program" <"$file" >"$work/piped" && cmp -s "$work/wanted" "$work/piped" || { failed=$((failed + 1)); printf 'differs: %s < %s\n' "$program" "$file"; }
    done
done
printf '%s compared with bin/play, %s differ\n' "$compared" "$failed"
for program in "$work/play-c" "$work/play-c-checked" "$work/cargo/release/play"; do
    if python3 tests/each.py "$program" <crates/plays/stdin >"$work/all" && cmp -s crates/plays/stdout "$work/all"; then
        printf '%s writes what plays writes\n' "${program##*/}"
    else
        failed=$((failed + 1))
        printf '%s differs from plays\n' "${program##*/}"
    fi
done
for program in "$work/board" "$work/board-checked"; do
    if "$program" >"$work/shown" && cmp -s examples/c/board.stdout "$work/shown"; then
        printf '%s prints what examples/c/board.stdout has\n' "${program##*/}"
    else
        failed=$((failed + 1))
        printf '%s differs from examples/c/board.stdout\n' "${program##*/}"
    fi
done
python3 tools/placing/compare.py "$work/call-placing" || failed=$((failed + 1))
python3 tools/match_load/compare.py "$work/call" || failed=$((failed + 1))
python3 tools/limits/compare.py "$work/call-limits" || failed=$((failed + 1))
python3 tools/defaults/compare.py "$work/call-defaults" || failed=$((failed + 1))
[ "$failed" -eq 0 ]
