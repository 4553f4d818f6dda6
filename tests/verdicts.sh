# What the other scripts of the shell in this folder begin with: a folder to work in, and words for what is wanted of a run.
top=$(cd "$(dirname "$0")/.." && pwd)
ncdump=$top/bin/ncdump
ncgen=$top/bin/ncgen
nccheck=$top/bin/nccheck
samples=$top/samples
passed=0
failed=0

if ! [ -x "$ncdump" ] || ! [ -x "$ncgen" ] || ! [ -x "$nccheck" ]; then
    echo "$0: a program in bin/ is missing: run make first" >&2
    exit 1
fi
work=$(mktemp -d)
trap 'rm -rf "$work"' EXIT
trap 'exit 1' HUP INT TERM
mkdir "$work/files" "$work/files/dir" "$work/want" "$work/got"
cd "$work/files" || exit 1

# stdout TEXT: the standard output that the next verdict wants, with printf's escapes.
stdout() {
    printf '%b' "$1" >"$work/want/stdout"
}

# stderr TEXT: the same of the standard error.
stderr() {
    printf '%b' "$1" >"$work/want/stderr"
}

# nothing: no output is wanted.
nothing() {
    : >"$work/want/stdout"
    : >"$work/want/stderr"
}

# run COMMAND..: runs the command, and keeps what it writes and its status.
run() {
    "$@" >"$work/got/stdout" 2>"$work/got/stderr"
    echo "status $?" >"$work/got/status"
}

# verdict NAME STATUS: what the test NAME shows holds where the last run wrote what is wanted and ended so.
verdict() {
    echo "status $2" >"$work/want/status"
    if diff -u "$work/want" "$work/got" >"$work/diff"; then
        passed=$((passed + 1))
        echo "ok $1"
    else
        failed=$((failed + 1))
        echo "FAILED $1"
        cat "$work/diff"
    fi
    nothing
}

# may_not_read STATUS FILE PROGRAM [WORD ..]: the test of the program on a file that may not be read. Root may read any file, so another user
# tries it, if that user can run a program here.
may_not_read() {
    local status=$1 file=$2 other=()
    chmod 000 "$file"
    chmod 711 "$work" "$work/files"
    cp "$3" program
    [ "$(id -u)" != 0 ] || other=(setpriv --reuid 65534 --regid 65534 --clear-groups)
    if "${other[@]}" test -x "$PWD/program" 2>"$work/said"; then
        run "${other[@]}" ./program "${@:4}" "$file"
        verdict file_that_may_not_be_read "$status"
    else
        echo "skipped file_that_may_not_be_read: no other user can run a program here: $(cat "$work/said")"
        nothing
    fi
}

# has_full_device: whether there is /dev/full, a device that is always full. Where not, this test fails and says what is wrong: as root,
# Unidata's `ncgen -o /dev/full` removes the device, and the next program that writes there makes a file.
has_full_device() {
    if [ -c /dev/full ]; then return; fi
    failed=$((failed + 1))
    echo "FAILED full_device_is_there: /dev/full is no character device; this makes it again: rm -f /dev/full; mknod -m 666 /dev/full c 1 7"
    return 1
}

# zeros N: N zero bytes.
zeros() {
    head -c "$1" /dev/zero
}

# summary: how many tests passed; fails where one failed.
summary() {
    echo "$passed passed, $failed failed"
    [ "$failed" -eq 0 ]
}

nothing
