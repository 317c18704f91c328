#!/bin/sh
# Tests the example and the programs for it: the files are what their sources say, bytes.sh and words.sh refuse what they
# cannot write, and tgsi_run, tgsi_list and tgsi_read write what README.md, docs/FORMAT.md and the help promise, by themselves
# (target/bin, made by `make build`) and as the installed commands.
set -eu
cd "$(dirname "$0")"
room=$(mktemp -d)
trap 'rm -rf "$room"' EXIT
mkdir -p "$room/bin" "$room/libexec/ropebonnet"
for program in tgsi_run tgsi_list tgsi_read; do
    cp ../scripts/command "$room/bin/$program"
    cp "../target/bin/$program" "$room/libexec/ropebonnet/$program"
done
run=$room/bin/tgsi_run
tests=0

# Lines with their ends, or nothing.
lines() {
    [ -z "$1" ] || printf '%s\n' "$1"
}

# `gives STATUS OUTPUT ERRORS COMMAND..`: a command's exit status, and what it writes on standard output and standard error.
gives() {
    wanted=$1
    lines "$2" >"$room/wanted.out"
    lines "$3" >"$room/wanted.errors"
    shift 3
    status=0
    "$@" >"$room/out" 2>"$room/errors" || status=$?
    if [ "$status" -ne "$wanted" ] || ! cmp -s "$room/out" "$room/wanted.out" || ! cmp -s "$room/errors" "$room/wanted.errors"; then
        echo "$*: status $status, and $wanted is wanted"
        diff "$room/out" "$room/wanted.out" || true
        diff "$room/errors" "$room/wanted.errors" || true
        exit 1
    fi
    tests=$((tests + 1))
}

# The files.
sh bytes.sh measure.txt >"$room/measure.bin"
sh words.sh 2,5 >"$room/comma.words"
sh words.sh 25 >"$room/whole.words"
for file in measure.bin comma.words whole.words; do
    cmp "$room/$file" "$file"
done
for file in measure.bin comma.words; do
    cmp "$file" "../crates/tgsi_run/data/$file"
done

# bytes.sh takes both cases of hex digits. Line 12 of the table is the immediate with the comma, at place 24.
awk 'BEGIN { FS = OFS = "|" } !/^#/ { $2 = tolower($2) } { print }' measure.txt >"$room/lower"
grep -q '| 02 2c 00' "$room/lower"
sh bytes.sh "$room/lower" | cmp - measure.bin
# `table_fault EDIT FAULT`: the table with an edit of line 12 is refused, and nothing is written.
table_fault() {
    sed "12$1" measure.txt >"$room/table"
    gives 1 "" "bytes.sh: line 12: $2" sh bytes.sh "$room/table"
}
table_fault 's/2C/2G/' 'byte "2G" is not two hex digits'
table_fault 's/2C/C/' 'byte "C" is not two hex digits'
table_fault 's/2C/2C0/' 'byte "2C0" is not two hex digits'
table_fault 's/| 02 [^|]*|/|  |/' 'no bytes'
table_fault 's/|.*//' 'not four columns but 1'
table_fault 's/|[^|]*$//' 'not four columns but 3'
table_fault 's/$/ | more/' 'not four columns but 5'
table_fault 's/ 24/ 23/' 'place 23, and 24 bytes stand before it'
table_fault 's/ 24/ x4/' 'place "   x4 " is not a number'
grep '^#' measure.txt >"$room/table"
gives 1 "" "bytes.sh: the table has no bytes" sh bytes.sh "$room/table"
: >"$room/table"
gives 1 "" "bytes.sh: the table has no bytes" sh bytes.sh "$room/table"
gives 1 "" "bytes.sh: no-such-file: not there, or not to be read" sh bytes.sh no-such-file
gives 1 "" "bytes.sh: .: not there, or not to be read" sh bytes.sh .
gives 2 "" "usage: sh bytes.sh TABLE > FILE" sh bytes.sh
gives 2 "" "usage: sh words.sh TEXT > FILE" sh words.sh
gives 2 "" "usage: sh words.sh TEXT > FILE" sh words.sh 2 5
gives 1 "" "words.sh: more than 8 characters" sh words.sh 123456789
gives 1 "" "words.sh: not ASCII" sh words.sh "2$(printf '\303\251')"
gives 1 "" "words.sh: no characters" sh words.sh ""
for code in 001 011 012 015 037 177; do
    gives 1 "" "words.sh: a control character" sh words.sh "$(printf '2%b5' "\\0$code")"
done
gives 1 "" "words.sh: a control character" sh words.sh "2
"

# `measures TEXT TENTHS PLACE STEPS`: the results of README.md
measures() {
    sh words.sh "$1" >"$room/words"
    gives 0 "ended $4
OUT 0 $2 0 0 0
OUT 1 $3 0 0 0" "" "$run" measure.bin "$room/words"
}
measures 2,5 25 1 69
measures 25 250 2 68
measures 2, 20 1 60
measures ,5 5 0 50
measures 13,75 137 2 88
measures 12345678 123456780 8 182
# What is typed is not checked: a point is a digit of value -2, and a second comma is passed over. A digit more than 25 takes
# 6 steps of the search and 13 of the reading; a comma takes 3 steps less than the digit in its place.
measures 2.5 1850 3 87
measures 2,,5 2 1 66

# docs/FORMAT.md: its tables as they stand there, and its commands, each line after a $, with what they write below them.
# `page_section HEADING`: the indented lines under a heading.
page_section() {
    awk -v heading="### $1" '/^#/ { on = $0 == heading } on && sub(/^    /, "")' ../docs/FORMAT.md
}
mkdir "$room/page"
ln -s "$PWD" "$room/page/examples"
page_section "A constant handed out" | grep -E '^ *[0-9]+ \|' >"$room/page/constant.txt"
page_section "A sum of corrections that a list in memory names" | grep -E '^ *[0-9]+ \|' >"$room/page/sum.txt"
{ page_section "From a table to a run"; page_section "A listing and back"; } >"$room/page/session"
[ "$(grep -c '^\$ tgsi_run ' "$room/page/session")" -eq 2 ] || { echo "docs/FORMAT.md: not two runs"; exit 1; }
[ "$(grep -cE '^\$ tgsi_(list|read) ' "$room/page/session")" -eq 3 ] || { echo "docs/FORMAT.md: not a listing and back"; exit 1; }
sed -n 's/^\$ //p' "$room/page/session" >"$room/page/commands"
on_the_page() { (cd "$room/page" && PATH=$room/bin:$PATH sh -eu commands); }
gives 0 "$(sed '/^\$ /d' "$room/page/session")" "" on_the_page

: >"$room/empty"
head -c 65537 /dev/zero >"$room/long"
. ./check_listing.sh
. ./check_command.sh
echo "examples: ok, $tests tests of commands"
