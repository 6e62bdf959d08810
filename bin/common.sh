# What bin/make-match and bin/play share; each sets `program` and `usage` first.
tool=$(basename -- "$0")
root=$(dirname -- "$(dirname -- "$(readlink -f -- "$0")")")
built=$root/crates/$program/out/$program

# Says what is wrong.
say() {
    printf '%s: %s\n' "$tool" "$1" >&2
}

# Says why there is no program to run, and ends.
give_up() {
    say "$1"
    exit 1
}

# Shows each crate that is proved anew, and keeps all lines in the file given.
show_proved() {
    while IFS= read -r line; do
        printf '%s\n' "$line" >>"$1"
        case $line in
        'rt: chose --jobs '*' for '*)
            [ -n "$begun" ] || say "proving and building $program, which takes a few minutes"
            begun=${line##* for }
            ;;
        'logic=proved '*)
            [ -z "$begun" ] || say "$begun proved"
            ;;
        esac
    done
}

# Proves and builds the program where it is not that of its sources, by a run on no input; one use at a time.
build() {
    for needed in rt flock; do
        command -v $needed >/dev/null || give_up "$program cannot be built or held to its sources: $needed is not on PATH"
    done
    if ! mkdir -p -- "$root/target" 2>/dev/null || ! (: >>"$root/target/$program.log") 2>/dev/null; then
        give_up "$root/target cannot be written, so $program can neither be built nor held to its sources"
    fi
    exec 9<"$root"
    if ! flock -w 5 9; then
        say "waiting for another use that builds"
        flock 9
    fi
    log=$root/target/$program.log begun=''
    : >"$log"
    if ! { (cd -- "$root/crates/$program" && rt run 2>&1 </dev/null 9<&- || echo "rt run failed") | show_proved "$log"; } || tail -n 1 -- "$log" | grep -q '^rt run failed$'; then
        cat -- "$log" >&2
        give_up "rt run failed in crates/$program, so there is no program to run"
    fi
    [ -x "$built" ] || give_up "rt run made no program in crates/$program: remove $root/crates/$program/out and try again"
    exec 9<&-
}

# Runs the program; where it says something on standard error, or does not end as it should, says so: status 1.
run() {
    { message=$("$built" 2>&1 >&3 3>&-); } 3>&1
    ended=$?
    if [ -n "$message" ]; then
        printf '%s\n' "$message" >&2
        return 1
    fi
    [ "$ended" -eq 0 ] && return 0
    say "$program ended with status $ended"
    return 1
}

# Whether a file can be read; else says why not.
readable() {
    if [ -d "$1" ]; then
        say "$1 is a directory"
    elif [ ! -e "$1" ]; then
        say "$1 does not exist"
    elif [ ! -r "$1" ]; then
        say "$1 cannot be read"
    else
        return 0
    fi
    return 1
}

# Prints the usage where it is asked for, where there is an option, and where there is no file and standard input is a terminal; ends where standard output, or standard input that is to be read, is closed.
options() {
    (: 3>&1) 2>/dev/null || give_up "standard output is closed"
    for argument; do
        case $argument in
        --help)
            printf '%s\n' "$usage" || exit 1
            exit 0
            ;;
        -*)
            printf '%s\n' "$usage" >&2
            exit 1
            ;;
        esac
    done
    [ $# -eq 0 ] || return 0
    (: 3<&0) 2>/dev/null || give_up "standard input is closed"
    if [ -t 0 ]; then
        printf '%s\n' "$usage" >&2
        exit 1
    fi
}
