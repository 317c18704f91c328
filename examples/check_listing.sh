# shellcheck shell=sh disable=SC2154
# The part of check.sh on tgsi_list and tgsi_read as commands: a listing and back, what is refused, files that cannot be used, and that
# OUT is then as it was.
list=$room/bin/tgsi_list
read=$room/bin/tgsi_read
listing=$(cat measure.listing)

# There and back, of the example, of the 34 bytes of document 01, and of the longest program that is accepted: each register has a
# declaration of its own, there are 256 immediates, and each instruction but END is a BFI.
# `both LENGTH LISTING`: a listing comes to so many bytes, and those to the listing.
both() {
    gives 0 "wrote $1 bytes" "" "$read" "$2" "$room/back"
    gives 0 "$(cat "$2")" "" "$list" "$room/back"
}
gives 0 "$listing" "" "$list" measure.bin
gives 0 "$listing" "" ../target/bin/tgsi_list measure.bin
both 440 measure.listing
cmp "$room/back" measure.bin
cat >"$room/constant.listing" <<'END'
1 3 0 0
2 25 0 0 0
16 3 0 1 6 0 228 0
137
END
sh bytes.sh "$room/page/constant.txt" >"$room/constant.bin"
both 34 "$room/constant.listing"
cmp "$room/back" "$room/constant.bin"
awk 'function declare(file, registers) { for (i = 0; i < registers; i++) print 1, file, i, i }
    BEGIN {
        declare(1, 1024); declare(2, 32); declare(3, 32); declare(4, 256); declare(5, 1); declare(7, 1)
        for (i = 0; i < 256; i++) print 2, "4294967295 4294967295 4294967295 4294967295"
        for (i = 0; i < 1023; i++) print 112, "4 255 15", "6 255 255 0", "6 255 255 0", "6 255 255 0", "6 255 255 0"
        print 137
    }' >"$room/longest"
both 38004 "$room/longest"
cmp measure.bin ../crates/tgsi_list/data/measure.bin
cmp measure.listing ../crates/tgsi_list/stdout
cmp measure.listing ../crates/tgsi_read/data/measure.listing

# A listing comes in pieces; a file takes the place of its own listing; the programs by themselves.
piped() { { head -c 3 measure.listing; sleep 0.1; tail -c +4 measure.listing; } | "$read" /dev/stdin "$room/back"; }
gives 0 "wrote 440 bytes" "" piped
cmp "$room/back" measure.bin
cp measure.listing "$room/same"
gives 0 "wrote 440 bytes" "" ../target/bin/tgsi_read "$room/same" "$room/same"
cmp "$room/same" measure.bin

# `stays STATUS ERRORS LISTING`: nothing is written, and a file is as it was.
stays() {
    printf kept >"$room/kept"
    touch -d 2001-01-01 "$room/kept"
    gives "$1" "" "$2" "$read" "$3" "$room/kept"
    printf kept | cmp - "$room/kept"
    [ "$(date -r "$room/kept" +%Y)" = 2001 ]
    gives "$1" "" "$2" "$read" "$3" "$room/none"
    for file in "$room/none" "$room/none.part" "$room/kept.part"; do
        [ ! -e "$file" ] || { echo "tgsi_read left $file"; exit 1; }
    done
}
# `refuses NUMBER PLACE WORDS LISTING`, a backslash and n in the listing for a line feed.
refuses() {
    printf '%b' "$4" >"$room/listing"
    stays 2 "refused $1 $2
$3" "$room/listing"
}
malformed() { refuses 30 "$1" "malformed line, also an unknown kind or a number too large for its field" "$2"; }
malformed 0 '137'
malformed 4 '137\n1'
malformed 0 '\n'
malformed 8 '1 3 0 0\n\n137\n'
malformed 0 '0137\n'
malformed 8 '1 3 0 0\n137 \n'
malformed 0 ' 137\n'
malformed 0 '1  3 0 0\n137\n'
malformed 0 '1\t3 0 0\n137\n'
malformed 0 '137\r\n'
malformed 0 '1 3 0\n137\n'
malformed 0 '1 3 0 0 0\n137\n'
malformed 0 '1 256 0 0\n137\n'
malformed 0 '1 3 65536 0\n137\n'
malformed 0 '2 4294967296 0 0 0\n137\n'
malformed 0 '2 18446744073709551616 0 0 0\n137\n'
malformed 0 '393\n'
malformed 0 '3\n137\n'
malformed 0 'x\n'
malformed 0 '-1\n'
malformed 8 '137\n137\n0137\n'
refuses 13 0 "file ends without END" ''
refuses 2 1 "a byte follows END" '137\n137\n'
refuses 9 17 "operand not declared, or no such immediate, or memory kind without MEM" '2 25 0 0 0\n16 3 0 1 6 0 228 0\n137\n'
head -c 262144 /dev/zero >"$room/listing"
stays 2 "refused 30 0
malformed line, also an unknown kind or a number too large for its field" "$room/listing"
awk 'BEGIN { for (i = 0; i < 65537; i++) print 128 }' | head -c 262144 >"$room/listing"
stays 2 "refused 6 1024
1,025th instruction or 257th immediate" "$room/listing"
# Longer than the listing of any program file: the first malformed line is looked for all the same, in pieces of 262,145 bytes.
# `long NUMBER PLACE WORDS`: what the listing is refused with.
long() {
    [ "$(wc -c <"$room/listing")" -gt 262144 ] || { echo "a listing that should be long is not"; exit 1; }
    stays 2 "refused $1 $2
$3" "$room/listing"
}
long_malformed() { long 30 "$1" "malformed line, also an unknown kind or a number too large for its field"; }
long_file() { long 1 0 "file over 65,536 bytes"; }
# `declarations COUNT`, a line of eight bytes each, so that line 32,768, counted from 0, is cut after its first byte.
declarations() { awk -v n="$1" 'BEGIN { for (i = 0; i < n; i++) print "1 3 0 0" }'; }
# `mixed COUNT`: lines of many lengths, no two after one another the same.
mixed() {
    awk -v n="$1" 'BEGIN {
        for (i = 0; i < n; i++)
            if (i % 3 == 0) print 1, i % 7 + 1, i % 65536, i * 7 % 65536
            else if (i % 3 == 1) print 2, i * 65537 % 2147483647, i, i * i % 2147483647, 7
            else print 112, 4, i % 65536, 15, 6, i % 251, 255, 0, 6, 1, 2, 0, 6, 3, i % 199, 0, 6, 5, 6, 8
    }'
}
declarations 32769 >"$room/listing"
long_file
declarations 100000 >"$room/listing"
long_file
for line in 0 32767 32768 32769 65536 99999; do
    declarations 100000 | awk -v n="$line" 'NR == n + 1 { print "1 3 00 "; next } { print }' >"$room/listing"
    long_malformed $((8 * line))
done
{ declarations 100000; printf 137; } >"$room/listing"
long_malformed 800000
{ declarations 100000; printf '137\n'; } >"$room/listing"
long_file
# Over 6,500,000 bytes, 26 pieces: well formed, and with a leading zero in one line.
mixed 200000 >"$room/mixed"
cp "$room/mixed" "$room/listing"
[ "$(wc -c <"$room/listing")" -gt 6500000 ] || { echo "the listing of many lines is short"; exit 1; }
long_file
for line in 5000 9000 20000 100000 150000 199999; do
    awk -v n="$line" 'NR == n + 1 { print "0" $0; next } { print }' "$room/mixed" >"$room/listing"
    long_malformed "$(head -n "$line" "$room/mixed" | wc -c)"
done
# A line of 300,000 digits, alone and after others; all zero bytes, and a listing without an end.
{ head -c 300000 /dev/zero | tr '\0' 1; echo; } >"$room/listing"
long_malformed 0
{ mixed 20000; head -c 300000 /dev/zero | tr '\0' 1; echo; } >"$room/listing"
long_malformed "$(mixed 20000 | wc -c)"
head -c 262145 /dev/zero >"$room/listing"
long_malformed 0
stays 2 "refused 30 0
malformed line, also an unknown kind or a number too large for its field" /dev/zero
# `thirteens COUNT`: of 13-byte lines 20,165 are one piece. The listing ends with it, or after it come an empty line, a line that has
# no line feed, one that is too long, and a good one.
thirteens() { awk -v n="$1" 'BEGIN { for (i = 0; i < n; i++) print "1 3 100 1000" }'; }
thirteens 20165 >"$room/listing"
long_file
for rest in '\n' '1' '1 3 100 1000' "$(printf '%0600d\\n' 7)" '\n1 3 0 0\n'; do
    { thirteens 20165; printf '%b' "$rest"; } >"$room/listing"
    long_malformed 262145
done
{ thirteens 20165; echo 137; } >"$room/listing"
long_file
# A byte without a line feed, the last one of a full piece; a line of 5,000 digits, cut where the piece ends.
{ awk 'BEGIN { for (i = 0; i < 65536; i++) print 128 }'; printf 1; } >"$room/listing"
long_malformed 262144
{ thirteens 20000; printf '%05000d\n' 7; thirteens 100; } >"$room/listing"
long_malformed 260000
# Through a pipe that pauses five bytes after the first piece, well formed and not.
slowly() { { head -c 262150 "$1"; sleep 0.1; tail -c +262151 "$1"; } | "$read" /dev/stdin "$room/none"; }
gives 2 "" "refused 1 0
file over 65,536 bytes" slowly "$room/mixed"
awk 'NR == 150001 { print "0" $0; next } { print }' "$room/mixed" >"$room/listing"
gives 2 "" "refused 30 $(head -n 150000 "$room/mixed" | wc -c)
malformed line, also an unknown kind or a number too large for its field" slowly "$room/listing"
[ ! -e "$room/none" ]

gives 0 "refused 13 0
file ends without END" "" ../target/bin/tgsi_read "$room/empty" "$room/none"

gives 2 "" "refused 13 0
file ends without END" "$list" "$room/empty"
gives 0 "refused 13 0
file ends without END" "" ../target/bin/tgsi_list "$room/empty"
gives 2 "" "refused 1 0
file over 65,536 bytes" "$list" "$room/long"

# Listings and programs that cannot be used.
stays 3 "no-such-file: No such file or directory" no-such-file
stays 3 ".: Is a directory" .
stays 3 "listing: File name too long" "$(printf '%5000s' x)"
# A name is never taken for a result.
stays 3 "wrote 1: No such file or directory" "wrote 1"
gives 3 "" "137: No such file or directory" "$list" 137
gives 3 "" ".: Is a directory" "$list" .
gives 3 "" "program: File name too long" "$list" "$(printf '%5000s' x)"

# Names that cannot be written, and what is there stays.
unwritable() { gives 3 "" "$1" "$read" measure.listing "$2"; }
mkdir "$room/folder"
unwritable "$room/folder: Is a directory" "$room/folder"
unwritable "$room/folder/: Is a directory" "$room/folder/"
unwritable "$room/absent/x.part: No such file or directory" "$room/absent/x"
unwritable "$room/kept/x: Not a directory" "$room/kept/x"
unwritable "output: File name too long" "$(printf '%5000s' x)"
mkfifo "$room/pipe"
unwritable "$room/pipe: not a regular file" "$room/pipe"
[ -p "$room/pipe" ]
unwritable "output: no name" ""
ln -s kept "$room/link"
unwritable "$room/link: a link, not a regular file" "$room/link"
ln -s none "$room/lost"
unwritable "$room/lost: a link, not a regular file" "$room/lost"
printf part >"$room/kept.part"
touch -d 2001-01-01 "$room/kept"
unwritable "$room/kept.part: File exists" "$room/kept"
printf part | cmp - "$room/kept.part"
rm "$room/kept.part"
printf kept | cmp - "$room/kept"
[ "$(date -r "$room/kept" +%Y)" = 2001 ]
[ ! -e "$room/none" ]
# A write that fails: a file may have no byte, as by a full card.
full() {
    { (trap '' XFSZ && ulimit -f 0 && "$read" measure.listing "$room/kept"); echo "status $?"; } 2>&1 | cat
}
gives 0 "$room/kept.part: File too large
status 3" "" full
printf kept | cmp - "$room/kept"
[ ! -e "$room/kept.part" ]
nowhere() { "$list" measure.bin 2>/dev/null >/dev/full; }
gives 3 "" "" nowhere
by_itself() { { ../target/bin/tgsi_list measure.bin >/dev/full; } 2>&1; }
gives 0 "standard output: No space left on device" "" by_itself
read_nowhere() { "$read" measure.listing "$room/told" 2>/dev/null >/dev/full; }
gives 3 "" "" read_nowhere
cmp measure.bin "$room/told"
read_by_itself() { { ../target/bin/tgsi_read measure.listing "$room/told" >/dev/full; } 2>&1; }
gives 0 "standard output: No space left on device" "" read_by_itself

# Help, asked for and not.
help="usage: tgsi_list PROGRAM, or tgsi_list --help (-h)
Standard output: a line for each record of a program file: its kind, then its fields in file order, in decimal.
Standard error: \`refused NUMBER PLACE\` and that in words, a file that cannot be used.
Exit status: 0 listed, 2 refused, 3 files or arguments that cannot be used.
Where it is not installed, target/bin/tgsi_list has exit status 0 always, and writes refusals on standard output."
gives 0 "$help" "" "$list" --help
gives 0 "$help" "" "$list" -h
gives 3 "" "$help" "$list"
gives 3 "" "$help" "$list" measure.bin measure.bin
help="usage: tgsi_read LISTING OUT, or tgsi_read --help (-h)
Writes the program file that a listing gives to OUT, by way of OUT.part, which then takes the place of a file OUT.
If the listing is refused or cannot be used, OUT stays as it is, and none is made. If standard output alone fails, OUT is written.
Standard output: \`wrote N bytes\`. Standard error: \`refused NUMBER PLACE\` and that in words, files that cannot be used.
PLACE counts from 0: of refusal 30 in the listing, of any other in the program file.
Exit status: 0 written, 2 refused, 3 files or arguments that cannot be used.
Where it is not installed, target/bin/tgsi_read has exit status 0 always, and writes refusals on standard output."
gives 0 "$help" "" "$read" --help
gives 0 "$help" "" "$read" -h
gives 3 "" "$help" "$read"
gives 3 "" "$help" "$read" measure.listing
gives 3 "" "$help" "$read" measure.listing "$room/none" "$room/none"
[ ! -e "$room/none" ]
