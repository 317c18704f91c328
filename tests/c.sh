#!/usr/bin/env bash
# Tests the C interface: what the header says of target/staticlib/libropebonnet.a, the example host, and what `make install`
# installs, with the programs in target/bin. `make build` builds all of them.
set -euo pipefail
cd "$(dirname "$0")/.."
library=target/staticlib/libropebonnet.a
header=include/ropebonnet.h
room=$(mktemp -d)
trap 'rm -rf "$room"' EXIT
strict=(-Wall -Wextra -Werror -Iinclude)
sanitized=(-g "-fsanitize=address,undefined" -fno-sanitize-recover=all)

die() {
    echo "c.sh: $*" >&2
    exit 1
}

# `tries NAME FLAG..`: builds tests/NAME.c with the records that programs are made of, and runs it.
tries() {
    local name=$1
    shift
    gcc -std=c11 -pedantic "${strict[@]}" "$@" "tests/$name.c" tests/program.c "$library" -o "$room/$name"
    "$room/$name" || die "$name: failed"
}

# The header as C89, C11 and C++, and a program in each. `as_language COMPILER STANDARD FLAG..`
as_language() {
    local compiler=$1 standard=$2
    shift 2
    "$compiler" "-std=$standard" -pedantic "${strict[@]}" "$@" tests/header.c -x none "$library" -o "$room/header"
    "$room/header" || die "header.c as $standard by $compiler: failed"
}

header_alone() {
    local compiler
    as_language gcc c89
    as_language gcc c11
    for compiler in g++ clang++; do
        if command -v $compiler >"$room/where"; then
            as_language $compiler c++98 -x c++
            as_language $compiler c++17 -x c++
            return
        fi
    done
    if echo 'class a;' | gcc -x c++ -fsyntax-only - 2>"$room/where"; then
        gcc -x c++ -fsyntax-only "${strict[@]}" tests/header.c
    else
        echo "header.c as C++: not tried, there is no g++ or clang++, and gcc has no C++"
    fi
}

# No macro of the header is without a test.
every_macro() {
    local macro macros
    macros=$(awk '$1 == "#define" && $2 != "ROPEBONNET_H" { sub(/\(.*/, "", $2); print $2 }' $header)
    [ "$(wc -w <<<"$macros")" -ge 30 ] || die "the header's macros were not found"
    for macro in $macros; do
        grep -qw "$macro" tests/*.c || die "$macro: no test uses it"
    done
}

# It gives the functions that the header declares, needs memcpy and memset, and has no data that can be written.
symbols() {
    grep -o 'ropebonnet_[a-z_]*(' $header | tr -d '(' | sort -u >"$room/declared"
    nm -g --defined-only $library | awk 'NF == 3 { print $3 }' | sort | diff "$room/declared" - || die "other functions"
    nm -u $library | awk '$1 == "U" { print $2 }' | sort -u | diff <(printf 'memcpy\nmemset\n') - || die "needs other functions"
    size -A $library | awk '$1 ~ /^\.(data|bss|tdata|tbss)/ && $2 > 0 { print; found = 1 } END { exit found }' ||
        die "it has data of its own"
}

# An assembler that knows x86-64 with SSE2 and nothing newer takes every instruction; it does not take popcnt.
instructions() {
    local assembler=(as --64 -march=generic64 -o "$room/again.o" -)
    ! echo 'popcnt %eax, %eax' | "${assembler[@]}" 2>"$room/refused" || die "the assembler takes newer instructions too"
    objdump -d --no-show-raw-insn $library >"$room/listing"
    sed -nE 's/^ *[0-9a-f]+:\t(data16 )*//p' "$room/listing" |
        sed -E 's/ *(#|<).*//; s/^(j[a-z]+|call) +([0-9a-f]+)$/\1 0x\2/' >"$room/code"
    [ "$(wc -l <"$room/code")" -gt 1000 ] || die "its instructions were not found"
    "${assembler[@]}" <"$room/code" || die "it has instructions newer than SSE2"
    grep -qE -- '-0x[0-9a-f]+\(%rsp' "$room/code" || die "it does not use the red zone, as the header says it does"
    gcc -shared -nostdlib -Wl,-z,text -Wl,--whole-archive $library -Wl,--no-whole-archive -o "$room/shared.so" ||
        die "it is not position independent"
}

freestanding() {
    local status=0
    gcc -std=c11 -O2 "${strict[@]}" -ffreestanding -fno-stack-protector -nostdlib -static tests/freestanding.c $library \
        -o "$room/freestanding"
    "$room/freestanding" || status=$?
    [ $status -eq 25 ] || die "freestanding.c: ended with $status, not with OUT[0].x"
}

example() {
    gcc -std=c11 "${strict[@]}" "$@" examples/host.c $library -o "$room/host"
    "$room/host" | diff examples/host.out - || die "host.c: other output"
}

# The flags of the installed package, by pkg-config or, where there is none, by the lines of its file.
flags() {
    local package=$1/lib/pkgconfig
    if command -v pkg-config >"$room/where"; then
        PKG_CONFIG_PATH=$package pkg-config --cflags --libs ropebonnet
    else
        echo "ropebonnet.pc: read by hand, there is no pkg-config" >&2
        sed -n 's/^Cflags: //p; s/^Libs: //p' "$package/ropebonnet.pc" |
            sed "s|\${includedir}|$1/include|; s|\${libdir}|$1/lib|" | tr '\n' ' '
    fi
}

installed() {
    local to=$room/installed flag version
    make -s install "PREFIX=$to"
    read -ra flag <<<"$(flags "$to")"
    gcc -std=c11 -Wall -Wextra -Werror examples/host.c "${flag[@]}" -o "$room/host"
    "$room/host" | diff examples/host.out - || die "host.c with what is installed: other output"
    version=$(sed -n 's/^Version: //p' "$to/lib/pkgconfig/ropebonnet.pc")
    [ "$version" = 1.1.0 ] || die "ropebonnet.pc has version $version"
    "$to/bin/tgsi_run" examples/measure.bin examples/comma.words | diff <(printf 'ended 69\nOUT 0 25 0 0 0\nOUT 1 1 0 0 0\n') - ||
        die "tgsi_run, installed: other output"
    "$to/bin/tgsi_list" examples/measure.bin | diff examples/measure.listing - || die "tgsi_list, installed: other output"
    "$to/bin/tgsi_read" examples/measure.listing "$room/measure.bin" | diff <(echo 'wrote 440 bytes') - || die "tgsi_read, installed: other output"
    cmp examples/measure.bin "$room/measure.bin" || die "tgsi_read, installed: another file"
    make -s uninstall "PREFIX=$to"
    [ -z "$(find "$to" ! -type d)" ] || die "make uninstall left something"
}

# Below DESTDIR, which may have any name, lies the same, and nothing in it names DESTDIR. What a PREFIX may be, the script says.
staged() {
    local to="$room/a stage's" prefix
    make -s install PREFIX=/opt/ropebonnet "DESTDIR=$to"
    (cd "$to" && find . ! -type d | sort) | diff <(printf './opt/ropebonnet/%s\n' bin/tgsi_{list,read,run} include/ropebonnet.h \
        lib/libropebonnet.a lib/pkgconfig/ropebonnet.pc libexec/ropebonnet/tgsi_{list,read,run}) - || die "DESTDIR: other files"
    grep -qx 'prefix=/opt/ropebonnet' "$to/opt/ropebonnet/lib/pkgconfig/ropebonnet.pc" || die "DESTDIR: prefix"
    for prefix in relative "/it's" '/a b' '/a;b' '/a"b'; do
        ! make -s install "PREFIX=$prefix" "DESTDIR=$room/none" 2>"$room/said" || die "PREFIX=$prefix was taken"
        grep -q '^install: PREFIX has' "$room/said" || die "PREFIX=$prefix: other words"
    done
    [ ! -e "$room/none" ] || die "a PREFIX that was refused left something"
}

# `not_installed WORDS`: make install in $room/tree says so, and puts nothing there.
not_installed() {
    ! make -s -C "$room/tree" install "PREFIX=$room/tree/to" 2>"$room/said" || die "installed, though $1"
    grep -qxF "install: $1" "$room/said" || die "make install does not say: $1"
    [ ! -e "$room/tree/to" ] || die "something was installed, though $1"
}

# What was built before a source, a definition or the header was changed is not installed, nor is what was not built.
stale() {
    local tree=$room/tree file changed
    local built=(target/staticlib/libropebonnet.a target/bin/tgsi_{run,list,read})
    local of=(crates/a/src/lib.rt crates/a/src/inner/b.rt crates/a/specs/C.antt include/ropebonnet.h)
    for file in "${built[@]}" "${of[@]}"; do
        install -D -m 644 -- /dev/null "$tree/$file"
    done
    cp -r include scripts Makefile "$tree"
    find "$tree" -type f -exec touch -d '2020-01-01 00:00:00' {} +
    make -s -C "$tree" install "PREFIX=$tree/to" || die "what is up to date is not installed"
    rm -r "$tree/to"
    for file in "${built[@]}"; do
        for changed in "${of[@]}"; do
            find "$tree" -type f -exec touch -d '2020-01-01 00:00:00' {} +
            touch -d '2020-01-01 00:00:02' "$tree/$changed" "${built[@]/#/$tree/}"
            touch -d '2020-01-01 00:00:01' "$tree/$file"
            not_installed "$file is older than $changed: make build"
        done
    done
    rm "$tree/$file"
    not_installed "$file is missing: make build"
}

header_alone
every_macro
symbols
instructions
tries refusals -O2
tries layout -O2
tries buffers -O2
tries buffers "${sanitized[@]}"
tries files -O2
tries files "${sanitized[@]}"
tries listings -O2
tries listings "${sanitized[@]}"
tries stack -O2 -Wl,-z,now
tries threads -O2 -pthread
freestanding
example -O2
example "${sanitized[@]}"
installed
staged
stale
echo "C interface: ok"
