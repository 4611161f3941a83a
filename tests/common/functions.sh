# Sourced by tests/NAME/run: counting, the library, and runs of a comparison. The caller has set `name`, and stands at the root.

passed=0
failed=0
check() { # STATUS WORDS: the status first, since words may hold a $(..) that sets $? anew
    if [ "$1" -eq 0 ]; then passed=$((passed + 1)); else failed=$((failed + 1)); echo "$name: $2"; fi
}
finish() {
    echo "$passed passed, $failed failed"
    [ "$failed" -eq 0 ]
    exit
}

work=$PWD/target/$name
library=target/staticlib/libpmap.a
# No two operations on doubles are fused into one: tests/common/tariff.c says why.
flags=(-std=c11 -D_DEFAULT_SOURCE -ffp-contract=off -O2 -Wall -Wextra -Wpedantic -Werror -Iinclude -Itests/common)

# What the tests need. Without it nothing is tested, and that is a failure.
begin() {
    local tool
    for tool in rt gcc nm; do
        if ! command -v "$tool" >/dev/null; then
            check 1 "$tool is not on the PATH: the host-side tests need it, and nothing was tested"
            finish
        fi
    done
    mkdir -p "$work" || exit 1
    tests/common/build
    check $? "there is no $library"
    [ -f "$library" ] || finish
}

# The comparison, compiled once; it is linked with the library, and with one that has a fault.
parts=()
sources=()
compile() { # FILE.c..
    local file object
    for file in "$@"; do
        object=$work/$(basename "$file" .c).o
        gcc "${flags[@]}" -c -o "$object" "$file"
        check $? "$file can't be compiled"
        parts+=("$object")
        sources+=("$file")
    done
}

# The numbers of the faults that a file plants: those that it compares `fault` or FAULT with.
faults_of() { # FILE.c
    grep -oiE 'fault [!=]= [0-9]+' "$1" | grep -o '[0-9]*' | sort -nu | tr '\n' ' '
}

# The comparison itself: without a fault nothing may differ, and with each fault something must.
try_each_fault() { # FAULTS COMMAND..
    local faults=$1 fault status
    shift
    for fault in 0 $faults; do
        FAULT=$fault "$@" >"$work/fault.log" 2>&1
        status=$?
        if [ "$fault" -eq 0 ]; then
            [ $status -eq 0 ] || tail -n 20 "$work/fault.log"
            check $status "the comparison finds differences where there are none"
        else
            [ $status -ne 0 ] && grep -q 'differs' "$work/fault.log"
            check $? "the comparison does not notice FAULT $fault"
        fi
    done
}

# The comparison with a library made of the reference.
try_faults() { # FAULTS FILE.c..
    local faults=$1
    shift
    gcc "${flags[@]}" -o "$work/shim" "${parts[@]}" "$@"
    check $? "the comparison can't be linked with $*"
    try_each_fault "$faults" "$work/shim" small
}

# Adds the count of a run of the comparison; a run that gives none is one failure.
compare() { # WORDS COMMAND..
    local words=$1 last status
    shift
    "$@" >"$work/compare.log" 2>&1
    status=$?
    grep -v '^[0-9]* passed, [0-9]* failed$' "$work/compare.log"
    last=$(grep '^[0-9]* passed, [0-9]* failed$' "$work/compare.log")
    if [[ $last =~ ^([0-9]+)\ passed,\ ([0-9]+)\ failed$ ]]; then
        passed=$((passed + BASH_REMATCH[1]))
        failed=$((failed + BASH_REMATCH[2]))
        [ "${BASH_REMATCH[2]}" -ne 0 ] || check $status "$words: ended with status $status"
    else
        check 1 "$words: gave no count, and ended with status $status"
    fi
}

# The library: once in full, once more where every read and write is watched.
try_library() {
    gcc "${flags[@]}" -o "$work/check" "${parts[@]}" "$library"
    check $? "the comparison can't be linked with $library"
    compare "the comparison" "$work/check"
    if command -v valgrind >/dev/null; then
        compare "the comparison under valgrind" valgrind -q --error-exitcode=99 --leak-check=full "$work/check" small heap
    else
        gcc "${flags[@]}" -fsanitize=address,undefined -o "$work/watched" "${sources[@]}" "$library"
        check $? "neither valgrind nor gcc's -fsanitize=address is here"
        compare "the comparison under AddressSanitizer" "$work/watched" small heap
    fi
}
