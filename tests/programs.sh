# Sourced by the tests of C programs: how these are compiled, under the sanitizers too, how they end and what they print, and what they are given.
# shellcheck shell=sh disable=SC2034
CC=${CC:-cc}
strict='-std=c11 -Wall -Wextra -Wpedantic -Werror -Ihost'
sanitized='-O1 -g -fsanitize=address,undefined -fno-sanitize-recover=all'
# Other numbers than the four page sizes: around and between them, and those that a part of the number would be taken for.
other_pages='0 1 31 33 63 65 96 127 129 160 192 255 257 512 8256 65568 65792 0x10040 4294967295 4294967328 4294967552 18446744073709551615'
# Other numbers of drives than 2, which all say one: around it, and those of which a part would be taken for it.
other_drives='0 1 3 4 18 34 130 258 514 4098 32770 65538 0x20000 0x1000002 2147483650 4294967294 4294967295 4294967298 18446744073709551615'

# ends STATUS MESSAGE COMMAND..: ends so, and says so on standard error.
ends() {
    status=$1
    message=$2
    shift 2
    error=$("$@" 2>&1 >/dev/null </dev/null)
    got=$?
    case $error in
    *"$message"*) [ $got -eq "$status" ] && return ;;
    esac
    echo "status $got: $error"
    return 1
}

# prints COMMAND..: ends well and prints something.
prints() {
    text=$("$@") && [ -n "$text" ]
}

# in_hex FILE: its bytes on one line, as the programs print them.
in_hex() {
    od -An -v -tx1 "$1" | awk '{ for (i = 1; i <= NF; i++) line = line (line == "" ? "" : " ") toupper($i) } END { print line }'
}
