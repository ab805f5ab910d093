# Sourced by the tests that compare programs: whether they print the same bytes, and all that they should. What each prints is kept in $out.

# difference ONE OTHER: the number of the first line that differs, and that line of both files.
difference() {
    awk 'BEGIN {
        do {
            number++
            has_one = (getline one <ARGV[1]) > 0
            has_other = (getline other <ARGV[2]) > 0
        } while (has_one && has_other && one "" == other "")
        print "line " number " differs"
        print ARGV[1] ": " (has_one ? one : "(it has ended)")
        print ARGV[2] ": " (has_other ? other : "(it has ended)")
    }' "$1" "$2"
}

# all_answered FILE EVENTS ENDING: a line for each event stands there, and behind them, where the session is torn, that word. What is explained
# is indented.
all_answered() {
    awk -v events="$2" -v ending="$3" '
        /^ / { next }
        /^[0-9]/ && said == "" { answered++; next }
        { said = said $0 }
        END {
            if (answered + 0 == events && said == (ending == "torn" ? "torn" : ""))
                exit
            print answered + 0 " answers to " events " events of a " ending " session, and then: " (said == "" ? "nothing" : said)
            exit 1
        }' "$1"
}

# agree SESSION EVENTS ENDING 'PROGRAM..' [OPTION..]: the programs print the same bytes, which answer all that the session holds, behind a line for the
# store where an option names one, and each ends with the status that its ENDING, whole or torn, calls for; else what is wrong is shown. The bench has
# one status for both.
agree() {
    session=$1
    holds=$2
    ending=$3
    programs=$4
    shift 4
    for option; do
        [ "$option" = --store ] && holds=$((holds + 1))
    done
    first=
    for program in $programs; do
        printed=$out/$(basename "$program").printed
        "$program" "$@" >"$printed" <"$session" 2>/dev/null
        status=$?
        first=${first:-$printed}
        if ! cmp -s "$first" "$printed"; then
            difference "$first" "$printed"
            return 1
        fi
        wanted=0
        [ "$ending" = torn ] && [ "${program##*/}" != bench ] && wanted=1
        if [ $status -ne $wanted ]; then
            echo "$program ended with status $status instead of $wanted"
            return 1
        fi
    done
    all_answered "$first" "$holds" "$ending"
}
