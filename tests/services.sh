# Sourced by the tests of the service program, which run it over the proved library and over the second reading, there under the sanitizers too. What is
# built and printed is kept in $out, and in $out/answers each number that was met.
# shellcheck shell=sh disable=SC2154
services="build/service build/second-service $out/second-service"

# build CHECK: over the second reading under the sanitizers, the service program and a check of the library.
# shellcheck disable=SC2086
build() {
    second='host/command.c check/second_service.c check/second_store.c check/second_mend.c'
    $CC $strict $sanitized host/service.c $second -o "$out"/second-service && $CC $strict $sanitized check/"$1".c $second -o "$out"/"$1"
}

# lay WORD..: writes these bytes, in hex; 00:270 is a run of so many.
lay() {
    for word; do
        octal=$(printf %03o "0x${word%:*}")
        times=1
        [ "$word" = "${word%:*}" ] || times=${word#*:}
        while [ "$times" -gt 0 ]; do
            # shellcheck disable=SC2059
            printf "\\$octal"
            times=$((times - 1))
        done
    done
}

# told STATUS LINES ARGUMENT..: every service program prints these lines, no more, and ends so.
told() {
    status=$1
    printf '%s\n' "$2" >"$out"/wanted
    shift 2
    for program in $services; do
        "$program" "$@" >"$out"/printed 2>/dev/null </dev/null
        got=$?
        [ $got -eq "$status" ] && cmp -s "$out"/wanted "$out"/printed && continue
        echo "$program: status $got instead of $status"
        diff "$out"/wanted "$out"/printed
        return 1
    done
    head -n 1 "$out"/wanted >>"$out"/answers
}

# alike ARGUMENT..: the service programs print the same bytes and end with the same status.
alike() {
    agreed=
    for program in $services; do
        said=$out/$(echo "$program" | tr / -).said
        "$program" "$@" >"$said" 2>/dev/null </dev/null
        echo "status $?" >>"$said"
        agreed=${agreed:-$said}
        cmp "$agreed" "$said" || return 1
    done
    head -n 1 "$agreed" >>"$out"/answers
}

# misused MESSAGE ARGUMENT..: every service program says so, prints nothing and ends with status 2.
misused() {
    complaint=$1
    shift
    for program in $services; do
        ends 2 "${program##*/}: $complaint" "$program" "$@" || return 1
        [ -z "$("$program" "$@" 2>/dev/null </dev/null)" ] || return 1
    done
}

# misses_its_output ARGUMENT..: every service program says that standard output cannot be written.
misses_its_output() {
    for program in $services; do
        "$program" "$@" >/dev/full 2>"$out"/printed
        [ $? -eq 2 ] && grep -q 'standard output could not be written' "$out"/printed || return 1
    done
}

# met 'NUMBER..': each of these is among the numbers met, and no other.
met() {
    [ "$(sort -nu "$out"/answers | paste -s -d ' ' -)" = "$1" ] && return
    sort -nu "$out"/answers
    return 1
}
