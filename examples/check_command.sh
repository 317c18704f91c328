# shellcheck shell=sh disable=SC2154
# The part of check.sh on tgsi_run as a command: its exit status, standard output and standard error.
comma="ended 69
OUT 0 25 0 0 0
OUT 1 1 0 0 0"

# Halted. MOV and BGNLOOP are instructions 0 and 1; from then on each step is ENDLOOP, instruction 2.
cat >"$room/table" <<'END'
 0 | 01 03 00 00 00 00                                  | DCL OUT[0]                |
 6 | 02 19 00 00 00 00 00 00 00 00 00 00 00 00 00 00 00 | IMM {25, 0, 0, 0}         |
23 | 10 03 00 00 01 06 00 00 E4 00                      | MOV OUT[0].x, IMM[0].xyzw |
33 | 83                                                 | BGNLOOP                   |
34 | 84                                                 | ENDLOOP                   |
35 | 89                                                 | END                       |
END
sh bytes.sh "$room/table" >"$room/endless.bin"
gives 1 "halted 200000 2
the budget of 200,000 steps is spent before END; instruction 2, counted from 0, comes next
OUT 0 25 0 0 0" "" "$run" "$room/endless.bin"

# Refused. The program by itself has no exit status, and writes a refusal on standard output, but no other complaint.
short="refused 20 0
inputs shorter than the program declares"
gives 2 "" "$short" "$run" measure.bin
gives 0 "$short" "" ../target/bin/tgsi_run measure.bin
gives 0 "" "no-such-file: No such file or directory" ../target/bin/tgsi_run no-such-file
gives 2 "" "refused 13 0
file ends without END" "$run" "$room/empty"
gives 2 "" "refused 1 0
file over 65,536 bytes" "$run" "$room/long"

# Files that cannot be used, by the system's reason.
gives 3 "" "no-such-file: No such file or directory" "$run" no-such-file
gives 3 "" "no-such-file: No such file or directory" "$run" measure.bin no-such-file
gives 3 "" "no-such-file: No such file or directory" "$run" measure.bin comma.words no-such-file
gives 3 "" "measure.bin/x: Not a directory" "$run" measure.bin/x
gives 3 "" ".: Is a directory" "$run" .
gives 3 "" ".: Is a directory" "$run" measure.bin comma.words .
ln -s loop "$room/loop"
gives 3 "" "$room/loop: Too many levels of symbolic links" "$run" "$room/loop"
name=$(printf '%300s' x)
gives 3 "" "$name: File name too long" "$run" measure.bin "$name"
name=$(printf '%5000s' x)
gives 3 "" "program: File name too long" "$run" "$name"
gives 3 "" "inputs: File name too long" "$run" measure.bin "$name"
gives 3 "" "constants: File name too long" "$run" measure.bin comma.words "$name"
# A name is never taken for an outcome.
for name in "ended 1" "x
ended 1"; do
    gives 3 "" "$name: No such file or directory" "$run" "$name"
done

# Inputs and constants longer than can be used: 32 words, then 0s.
words() {
    cp comma.words "$room/words"
    truncate -s "$1" "$room/words"
}
unused() {
    words "$1"
    gives 0 "$comma" "$2" "$run" measure.bin "$room/words"
}
unused 512 ""
unused 516 "inputs: 128 of 129 words used"
unused 16384 "inputs: 128 of 4096 words used"
unused 16388 "inputs: 128 of 4097 words used"
unused 1000000 "inputs: 128 of 250000 words used"
words 16384
gives 0 "$comma" "" "$run" measure.bin comma.words "$room/words"
words 16388
gives 0 "$comma" "constants: 4096 of 4097 words used" "$run" measure.bin comma.words "$room/words"
for size in 3 511 16385 1000001; do
    words "$size"
    gives 3 "" "$room/words: not a whole number of 32-bit words" "$run" measure.bin "$room/words"
    gives 3 "" "$room/words: not a whole number of 32-bit words" "$run" measure.bin comma.words "$room/words"
done

# A file that comes in pieces is read to its end.
in_pieces() {
    { head -c 3 "$1"; sleep 0.1; tail -c +4 "$1"; } | "$run" measure.bin /dev/stdin
}
gives 0 "$comma" "" in_pieces comma.words
words 20000
gives 0 "$comma" "inputs: 128 of 5000 words used" in_pieces "$room/words"

# Help, asked for and not.
help="usage: tgsi_run PROGRAM [INPUTS [CONSTANTS]], or tgsi_run --help (-h)
Runs a program file with memory of 16,384 words of 0 and a budget of 200,000 steps.
INPUTS and CONSTANTS are files of little-endian 32-bit words, four a register; 128 and 4,096 words can be used.
Standard output: \`ended STEPS\`, or \`halted STEPS NEXT\` and that in words, and a line \`OUT i x y z w\` for each declared
OUT register. Standard error: \`refused NUMBER PLACE\` and that in words, files that cannot be used, words that are not.
Exit status: 0 ended, 1 halted, 2 refused, 3 files or arguments that cannot be used.
Where it is not installed, target/bin/tgsi_run has exit status 0 always, and writes refusals on standard output."
gives 0 "$help" "" "$run" --help
gives 0 "$help" "" "$run" -h
gives 3 "" "$help" "$run"
gives 3 "" "$help" "$run" measure.bin comma.words comma.words comma.words
cp measure.bin "$room/-h"
gives 0 "$comma" "" "$run" "$room/-h" comma.words

# The command by another name, without a place for its output, and without its program.
ln -s "$run" "$room/command"
gives 0 "$comma" "" "$room/command" measure.bin comma.words
nowhere() { "$run" measure.bin comma.words 2>/dev/null >/dev/full; }
gives 3 "" "" nowhere
rm "$room/libexec/ropebonnet/tgsi_run"
without_program() { "$run" measure.bin comma.words 2>&1 | grep -o "cannot be run.*"; }
gives 0 "cannot be run, or did not end by itself (status 127)" "" without_program
gives 3 "" "$("$run" measure.bin comma.words 2>&1)" "$run" measure.bin comma.words
