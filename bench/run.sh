#!/bin/sh
# run.sh WORK [SOURCES]: builds the library here, and in the folder WORK pMARS and the driver, and measures.
# With the Rust's sources, the Rust too, as it is and without the line that a step writes to standard error.
# Needs rt, gcc, python3, valgrind and what tools/pmars/build.sh needs; for the Rust what tools/oracle/build.sh needs.
set -eu
here=$(cd "$(dirname "$0")" && pwd)
mkdir -p "$1"
work=$(cd "$1" && pwd)
sources=${2:+$(cd "$2" && pwd)}

cd "$here/.."
bin/library

# pMARS' loop, as in its build for tournaments, and our glue
sh tools/pmars/build.sh "$work/pmars"
pmars=$work/pmars/source/src
mkdir -p "$work/objects"
for part in sim pos global str_eng; do
    gcc -O3 -std=gnu89 -fcommon -w -DEXT94 -DPERMUTATE -DSERVER -c -o "$work/objects/$part.o" "$pmars/$part.c"
done
gcc -O3 -Wall -fcommon -DEXT94 -DPERMUTATE -DSERVER -isystem "$pmars" -c -o "$work/objects/pmars.o" bench/pmars.c

gcc -O3 -Wall -Iinclude -o "$work/driver" bench/driver.c bench/matches.c bench/records.c bench/battles.c bench/plain.c \
    "$work"/objects/*.o target/staticlib/libsumacadze.a

if [ -n "$sources" ]; then
    export CARGO_PROFILE_RELEASE_OVERFLOW_CHECKS=false
    sh tools/oracle/build.sh "$sources" "$work/rust"
    rm -rf "$work/quiet-sources"
    cp -R "$sources" "$work/quiet-sources"
    chmod -R u+w "$work/quiet-sources"
    python3 bench/quiet.py "$work/quiet-sources/corewars-sim/src/core.rs"
    sh tools/oracle/build.sh "$work/quiet-sources" "$work/rust-quiet"
fi

python3 bench/measure.py "$work"
