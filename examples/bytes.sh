#!/bin/sh
# Writes the bytes that stand in the second column of a table such as measure.txt:  sh bytes.sh TABLE > FILE
# A line of the table is `place | bytes in hex | record | comment`; lines that start with # are left out. A byte that is not two
# hex digits, a line without bytes or with fewer or more than four columns, and a place that is not the number of bytes before it
# are errors: the line is named on standard error, and nothing is written. So are a table that cannot be read and one without
# bytes.
set -eu
export LC_ALL=C
[ $# -eq 1 ] || { echo "usage: sh bytes.sh TABLE > FILE" >&2; exit 2; }
if [ -d "$1" ] || [ ! -r "$1" ]; then
    echo "bytes.sh: $1: not there, or not to be read" >&2
    exit 1
fi
octal=$(awk -F'|' '
    function digit(c) { return index("0123456789ABCDEF", toupper(c)) - 1 }
    function fault(text) { print "bytes.sh: line " FNR ": " text > "/dev/stderr"; failed = 1; exit 1 }
    /^#/ { next }
    NF != 4 { fault("not four columns but " NF) }
    $1 !~ /^ *[0-9]+ *$/ { fault("place \"" $1 "\" is not a number") }
    $1 + 0 != at { fault("place " $1 + 0 ", and " at + 0 " bytes stand before it") }
    {
        n = split($2, byte, " ")
        if (n == 0) fault("no bytes")
        for (i = 1; i <= n; i++) {
            if (byte[i] !~ /^[0-9A-Fa-f][0-9A-Fa-f]$/) fault("byte \"" byte[i] "\" is not two hex digits")
            printf "\\%03o", 16 * digit(substr(byte[i], 1, 1)) + digit(substr(byte[i], 2, 1))
        }
        at += n
    }
    END {
        if (failed || at > 0) exit failed
        print "bytes.sh: the table has no bytes" > "/dev/stderr"
        exit 1
    }' <"$1")
# shellcheck disable=SC2059  # the format is the bytes, as octal escapes
printf "$octal"
