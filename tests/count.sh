# Sourced by the tests: counts what passed and what failed. A test ends in `finish`, whose line 'N passed, M failed' is its last.
passed=0
failed=0

# The search for leaks takes seconds at the end of every sanitized program on aarch64; x86-64 makes it.
[ "$(uname -m)" = x86_64 ] || export ASAN_OPTIONS=detect_leaks=0

# expect NAME COMMAND..: passes where the command succeeds, and shows what it said where it does not.
expect() {
    name=$1
    shift
    if said=$("$@" 2>&1); then
        passed=$((passed + 1))
    else
        failed=$((failed + 1))
        printf 'FAILED %s\n%s\n' "$name" "$said"
    fi
}

finish() {
    echo "$passed passed, $failed failed"
    [ "$failed" -eq 0 ]
}
