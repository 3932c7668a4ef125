#!/bin/sh
# Tries the built program where a call or a file is off: what it prints, what it says on standard error, and its status.
# Usage: tests/program.sh, after the program is built (rt run in crates/vozketil, or ./vozketil FILE).
here=$(cd "$(dirname "$0")/.." && pwd) || exit 1
program=$here/crates/vozketil/out/vozketil
[ -x "$program" ] || { echo "program.sh: $program is not built" >&2; exit 1; }
room=$(mktemp -d) || exit 1
trap 'rm -rf "$room"' EXIT
cd "$room" || exit 1
tried=0
failed=0

# ran NAME STATUS: the last run's status, and the files expected.out and expected.err, are as they should be.
ran() {
    tried=$((tried + 1))
    if [ "$status" = "$2" ] && cmp -s out expected.out && cmp -s err expected.err; then
        return
    fi
    failed=$((failed + 1))
    echo "FAILED: $1: status $status (expected $2)"
    diff expected.out out
    diff expected.err err
}

# run ARGUMENT..: runs the program, with what it writes in the files out and err.
run() {
    "$program" "$@" >out 2>err
    status=$?
}

usage='usage: vozketil [--work] FILE'
: >expected.out

echo "$usage" >expected.err
run
ran 'no argument' 1
run --work
ran 'an option and no file' 1
run --wrok file
ran 'an unknown option' 1
run -w
ran 'an unknown option and no file' 1
run --work --work
ran 'the option twice' 1
run file file
ran 'two files' 1
run file --work
ran 'the option after the file' 1
run --work file file
ran 'the option and two files' 1

echo 'vozketil: not-there cannot be opened: No such file or directory (os error 2)' >expected.err
run not-there
ran 'a file that is not there' 1
run --work not-there
ran 'a file that is not there, with the option' 1

mkdir folder
echo 'vozketil: folder cannot be read: Is a directory (os error 21)' >expected.err
run folder
ran 'a folder' 1

: >expected.err
: >empty
run empty
ran 'an empty file' 0
run --work empty
ran 'an empty file, with the option' 0

# bytes NUMBERS: writes the bytes of these octal numbers.
bytes() {
    printf "$1"
}

# Three requests: one that is asked (no types, no tables, the query that is the env, no work), one byte that is no
# request, and no byte at all. The first has 18 bytes and 2 numbers lent, the others 1 and 0 bytes and no number lent.
{
    bytes '\022\000\000\000\002\000\000\000'
    bytes '\000\000\000\000\000\000\000\000\000\002\000\000\000\000\000\000\000\000'
    bytes '\001\000\000\000\000\000\000\000'
    bytes '\377'
    bytes '\000\000\000\000\000\000\000\000'
} >whole

echo '0 6 0 this desk cannot do such a request' >first
echo '0 1 0 the bytes are no request' >second
cat first second second >expected.out
run whole
ran 'three requests' 0
run --work whole
ran 'three requests, with the option' 0

# The same, cut off after each of its bytes. Requests end at the bytes 26, 35 and 43.
at=0
size=$(($(wc -c <whole)))
while [ "$at" -lt "$size" ]; do
    head -c "$at" whole >cut
    {
        [ "$at" -lt 26 ] || cat first
        [ "$at" -lt 35 ] || cat second
    } >expected.out
    case $at in
    0 | 26 | 35)
        : >expected.err
        expected=0
        ;;
    *)
        echo "vozketil: cut breaks off at byte $at, in the middle of a request" >expected.err
        expected=1
        ;;
    esac
    run cut
    ran "cut off at byte $at" "$expected"
    at=$((at + 1))
done

# A request that is said to have four thousand million bytes, of which there are three.
bytes '\377\377\377\377\377\377\377\377abc' >cut
: >expected.out
echo 'vozketil: cut breaks off at byte 11, in the middle of a request' >expected.err
run cut
ran 'far fewer bytes than are said to come' 1

# Requests that are larger than what is read at a time, between small ones: bytes 377, so each is refused at its first.
{
    bytes '\001\000\000\000\000\000\000\000\377'
    bytes '\100\102\017\000\001\000\000\000'
    head -c 1000000 /dev/zero | tr '\000' '\377'
    bytes '\100\113\114\000\000\000\000\000'
    head -c 5000000 /dev/zero | tr '\000' '\377'
    bytes '\100\102\017\000\001\000\000\000'
    head -c 1000000 /dev/zero | tr '\000' '\377'
    bytes '\001\000\000\000\000\000\000\000\377'
} >large
cat second second second second second >expected.out
: >expected.err
run large
ran 'large requests' 0

head -c 5999999 large >cut
cat second second >expected.out
echo 'vozketil: cut breaks off at byte 5999999, in the middle of a request' >expected.err
run cut
ran 'a large request cut off' 1

# More memory is to be lent than there is; the line of the request before it is printed.
{
    bytes '\001\000\000\000\000\000\000\000\377'
    bytes '\001\000\000\000\377\377\377\377\377'
} >greedy
cat second >expected.out
echo 'vozketil: there is not enough memory for the requests of greedy' >expected.err
(ulimit -v 1000000 && exec "$program" greedy) >out 2>err
status=$?
ran 'more memory lent than there is' 1

# Where the lines can't be written, that is said.
if [ -w /dev/full ]; then
    : >expected.out
    echo 'vozketil: the answers cannot be written: No space left on device (os error 28)' >expected.err
    "$program" whole >/dev/full 2>err
    status=$?
    : >out
    ran 'no room for the lines' 1
fi

echo "$tried tried, $failed failed"
[ "$failed" = 0 ]
