# Sourced by what reads the logs of the must-fail edits, which tests/try-edits keeps: where each was refused.

# edits_of CRATE: a line for each of its edits, NAME FACT FILE: how it is called, and the fact that refuses it. A file has one edit, of its own name; or
# it tries edits of several functions in one run of the prover, each under a line '# NAME: ..', which refuses each at its own function's contract.
edits_of() {
    find crates/"$1"/must-fail -name '*.edit' 2>/dev/null | sort | while read -r file; do
        awk -v name="$(basename "$file" .edit)" '
            /^# [a-z0-9_]+: / { name = $2; sub(/:$/, "", name) }
            /^# refused by .*\(.*\)$/ { sub(/^.*\(/, ""); sub(/\)$/, ""); print name, $0, FILENAME }' "$file"
    done
}

# log_of FILE: what the prover said of it.
log_of() {
    echo "$1" | sed 's|^crates/\(.*\)/must-fail/\(.*\)\.edit$|build/edits/\1/\2.log|'
}

# refusals LOG: what was refused, as FILE.DECLARATION or FUNCTION.GOAL, a method with its type before it; first the goals that no answer is written for.
# These are named in the line of a function that has none at all, and else each in a note before the line of its function. What rests on something
# refused is refused too and shows nothing; nor does a name that is not in scope, a parse error or a goal that cannot be named: 'nothing' stands for
# these. A long message says what it is in its second line, which is indented.
refusals() {
    [ -f "$1" ] && awk '
        function name_of(path,  parts, count) {
            count = split(path, parts, /::|\//)
            return (count > 1 && parts[count - 1] ~ /^[A-Z]/ ? parts[count - 1] "::" : "") parts[count]
        }
        function tell(told, fact) {
            if (!((told, fact) in seen))
                facts[told, ++number[told]] = fact
            seen[told, fact]
        }
        function not_searched(goals,  name) {
            name = $2
            sub(/:$/, "", name)
            while (match(goals, /`[^`]+`/)) {
                tell("unwritten", name_of(name) "." substr(goals, RSTART + 1, RLENGTH - 2))
                goals = substr(goals, RSTART + RLENGTH)
            }
        }
        function refused(  file, name) {
            file = name = line
            sub(/\.antt:.*/, "", file)
            sub(/^\.\/[a-z]*\//, "", file)
            if (file ~ /\/(Answers|Invariants|Proof)$/)
                sub(/\/[A-Z][a-z]*$/, "", file)
            else
                sub(/^.*\//, "", file)
            sub(/^[^`]*: error: `/, "", name)
            sub(/`.*/, "", name)
            tell("written", name_of(file) "." name)
        }
        function keep() {
            $0 = line
            if (line ~ /^fn .*: no proof: .*did not prove/) {
                sub(/^.*did not prove/, "", line)
                sub(/;.*/, "", line)
                not_searched(line)
            } else if (line ~ /^fn .*: not proved/)
                not_searched(goals)
            else if (match(line, /^note: src\/[^ ]*: it is not proved that .*\(`[^`]+`\)/)) {
                sub(/^.*\(`/, "`", line)
                sub(/`\).*/, "`", line)
                goals = goals line
            } else if (line ~ /: error: /) {
                if (line ~ /is not in scope|can be named from here|cannot continue|unexpected|was not admitted|has no field|is no name|operand is missing|expected the end/)
                    tell("written", "nothing")
                else if (line ~ /^[^ ]*\.antt:[0-9:]* error: `[^`]+`/)
                    refused()
            }
            if ($1 == "fn")
                goals = ""
        }
        !/^  / { whole = $0; keep(); line = whole; lines = 1; next }
        ++lines == 2 { line = line $0 }
        END {
            keep()
            for (i = 1; i <= number["unwritten"]; i++)
                print facts["unwritten", i]
            for (i = 1; i <= number["written"]; i++)
                print facts["written", i]
        }' "$1"
}
