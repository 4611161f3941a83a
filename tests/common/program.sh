# Sourced by the test of a program, after functions.sh: what every program is held to. The caller has set `name`, the program's.

program=crates/$name/out/$name
mkdir -p "$work" || exit 1

# ./NAME on every example, byte for byte; from another folder; with little stack.
try_examples() { # INPUT-ENDING OUTPUT-ENDING
    local file root=$PWD status
    for file in examples/*."$1"; do
        "./$name" <"$file" >"$work/printed"
        status=$?
        check $status "./$name < $file ended with status $status"
        cmp "$work/printed" "${file%."$1"}.$2"
        check $? "./$name < $file does not print ${file%."$1"}.$2"
    done
    (cd / && "$root/$name" <"$root/examples/triangle.$1") | cmp - "examples/triangle.$2"
    check $? "./$name can't be run from another folder"
    (ulimit -s 1024 && "./$name" <"examples/figure1.$1") | cmp - "examples/figure1.$2"
    check $? "./$name needs more than 1 MiB of stack"
}

# A crate and all that it rests on, by crates.txt, without the library's own.
resting() { # CRATE
    local crate known='' reached=$1
    while [ "$reached" != "$known" ]; do
        known=$reached
        reached=$(for crate in $known; do echo "$crate"; sed -nE "s/^$crate( staticlib)?:([^#]*).*/\2/p" crates.txt; done | tr -s ' ' '\n' | grep . | sort -u)
    done
    for crate in $known; do grep -qE "^$crate( staticlib)?:" crates.txt && echo "$crate"; done
}

# What ./NAME says of its progress: as many crates as are to be proved. It is built, so that an rt that does nothing is enough here.
try_progress() { # INPUT
    local told counted
    mkdir -p "$work/idle" && printf '#!/bin/sh\n' >"$work/idle/rt" && chmod +x "$work/idle/rt"
    touch -d @0 "$program"
    told=$(PATH=$work/idle:$PATH "./$name" <"$1" 2>&1 >/dev/null | sed -n 's/.*once: \([0-9]*\) crates.*/\1/p')
    counted=$(resting "$name" | wc -l)
    [ -n "$told" ] && [ "$told" = "$counted" ]
    check $? "./$name counts $told crates, and crates.txt has $counted"
}

# An input that can't be read, or that fails after some bytes, is refused: what was cut off is never taken for the whole.
try_unreadable() { # REFUSAL INPUT..
    local refused="refused $1" file
    shift
    gcc "${flags[@]}" -o "$work/cut" tests/common/cut.c
    check $? "tests/common/cut.c can't be built"
    [ "$("$program" <.)" = "$refused" ] && [ "$("$program" <&-)" = "$refused" ]
    check $? "$name does not refuse an input that can't be read"
    for file in "$@"; do
        [ "$("$work/cut" "$program" <"$file")" = "$refused" ]
        check $? "$name takes $file for the whole input though a read failed after it"
    done
}

# An output that can't be written is said on standard error; one that can is not spoken of.
try_output() { # INPUT
    local output said="$name: standard output can't be written"
    for output in /dev/full /dev/null; do
        "$program" <"$1" >$output 2>"$work/err"
        if [ $output = /dev/full ]; then [ "$(cat "$work/err")" = "$said" ]; else [ ! -s "$work/err" ]; fi
        check $? "$name says this of its output $output: $(cat "$work/err")"
    done
    "$program" <"$1" 2>"$work/err" >&-
    [ "$(cat "$work/err")" = "$said" ]
    check $? "$name does not say that its standard output is closed"
}

# The account as a program, and the comparison: tests/NAME/differential.c with the files named.
build_comparison() { # ACCOUNT.c FILE.c..
    local account=$1
    shift
    compile "$account" tests/common/{bytes,reference,book}.c
    gcc "${flags[@]}" -o "$work/account" tests/common/account.c "${parts[@]}"
    check $? "tests/common/account.c can't be built with $account"
    compile "$@" tests/common/{program,cards}.c
    gcc "${flags[@]}" -o "$work/differential" "tests/$name/differential.c" "${parts[@]}"
    check $? "tests/$name/differential.c can't be built"
}

# The comparison, with the account in the program's place, right and with each of its faults; then with the program itself.
try_program() { # ACCOUNT.c
    try_each_fault "$(faults_of "$1")" "$work/differential" "$work/account" "$work" small
    compare "the comparison" "$work/differential" "$program" "$work"
}
