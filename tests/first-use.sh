#!/bin/sh
# Tries how bin/play comes to its program, with a stand-in for rt that builds in no time: every use is held to the sources, first uses at once do not meet, and a tree that cannot be written or built gets its line.
# Run as: tests/first-use.sh
root=$(dirname -- "$(dirname -- "$(readlink -f -- "$0")")")
work=$(mktemp -d) || exit 1
trap 'rm -rf "$work"' EXIT
passed=0
failed=0

# Counts a try: its name, and whether it is as it should be.
count() {
    if [ "$2" -eq 0 ]; then
        passed=$((passed + 1))
    else
        failed=$((failed + 1))
        printf 'failed: %s\n' "$1"
    fi
}

mkdir -p "$work/tree/crates/play" "$work/path"
cp -r "$root/bin" "$work/tree/bin"
cat >"$work/path/rt" <<'STAND_IN'
#!/bin/sh
# In crates/play, builds out/play, which prints the tree's file `source`, if that has changed; two at once fail.
mkdir meeting 2>/dev/null || { echo "rt: two at once"; exit 1; }
sleep 0.2
if [ -e ../../broken ]; then
    rmdir meeting
    echo "logic=not-proved"
    exit 1
fi
if cmp -s ../../source out/built; then
    echo "rt: nothing has changed since the last proved build"
else
    echo "rt: chose --jobs 2 for play"
    mkdir -p out
    cp ../../source out/built
    printf '#!/bin/sh\necho %s\n' "$(cat ../../source)" >out/play
    chmod +x out/play
    echo "logic=proved functions=1"
fi
rmdir meeting
STAND_IN
chmod +x "$work/path/rt"
export PATH="$work/path:$PATH"
cd "$work/tree" || exit 1

echo one >source
bin/play </dev/null >../out 2>../err
[ "$(cat ../out)" = one ] && grep -q '^play: proving and building play' ../err && grep -q '^play: play proved$' ../err
count 'a first use builds, and says so' $?

bin/play </dev/null >../out 2>../err
[ "$(cat ../out)" = one ] && [ ! -s ../err ]
count 'a second use is silent' $?

echo two >source
bin/play </dev/null >../out 2>../err
[ "$(cat ../out)" = two ]
count 'a program older than its sources is not run' $?

rm -rf crates/play/out
for use in 1 2 3; do
    bin/play </dev/null >"../out.$use" 2>"../err.$use" &
done
wait
[ "$(cat ../out.1 ../out.2 ../out.3 | sort -u)" = two ]
count 'three first uses at once' $?

: >broken
bin/play </dev/null >../out 2>../err
[ $? -eq 1 ] && [ ! -s ../out ] && [ "$(tail -n 1 ../err)" = 'play: rt run failed in crates/play, so there is no program to run' ]
count 'sources that are not proved are not run' $?
rm broken

rm -rf target
: >target
bin/play </dev/null >../out 2>../err
[ $? -eq 1 ] && [ ! -s ../out ] && [ "$(grep -c '' ../err)" -eq 1 ]
count 'a tree that cannot be written gets one line' $?

printf '%s passed, %s failed\n' "$passed" "$failed"
[ "$failed" -eq 0 ]
