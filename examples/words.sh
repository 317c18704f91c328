#!/bin/sh
# Writes a text as input words for measure.bin:  sh words.sh 2,5 > FILE
# Eight registers of four little-endian words: the code of a character in x, 0 in y, z and w; 0 after the last character. A text
# of no character or more than eight, or with one that is not ASCII or is a control character, such as a newline, is an error,
# and nothing is written.
set -eu
[ $# -eq 1 ] || { echo "usage: sh words.sh TEXT > FILE" >&2; exit 2; }
octal=$(printf %s "$1" | od -An -v -tu1 | awk '
    function fault(text) { print "words.sh: " text > "/dev/stderr"; exit 1 }
    { for (i = 1; i <= NF; i++) code[n++] = $i }
    END {
        if (n == 0) fault("no characters")
        for (r = 0; r < n; r++) {
            if (code[r] > 127) fault("not ASCII")
            if (code[r] < 32 || code[r] == 127) fault("a control character")
        }
        if (n > 8) fault("more than 8 characters")
        for (r = 0; r < 8; r++) {
            printf "\\%03o", code[r]
            for (i = 1; i < 16; i++) printf "\\000"
        }
    }')
# shellcheck disable=SC2059  # the format is the bytes, as octal escapes
printf "$octal"
