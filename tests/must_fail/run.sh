#!/bin/sh
# Reads what `rt ci` said of each must-fail edit, and fails where a refusal shows
# nothing.
#
#     tests/must_fail/run.sh [LOG [ROOT]]
#
# LOG is what `rt ci` (or `rt must-fail`) printed: target/rt-ci.log, if none is given.
# ROOT is the repository: this one, if none is given. Of the edit
# crates/CRATE/must-fail/LABEL.edit LOG has a line
#
#     rt: must-fail CRATE/LABEL.edit: refused, as it must be: ERROR
#
# whose ERROR has to be a fact that does not hold. A tactic that gave up, or a proof
# that names what the edited code does not have, is none: it says nothing of the edit.
# How many errors there are of each kind is printed. Where ROOT has
# docs/MUST_FAIL.md, each edit has its row there, and each row its edit.
#
#     tests/must_fail/run.sh --self-test
#
# tries this on made-up logs.
set -eu

# The kind of the error that a line of the log tells, by the toolchain's words.
kind_of() {
    awk '
        # What is quoted is cut short, so that no term is taken for the words.
        function words(line,    n, i, part, out) {
            n = split(line, part, "`")
            for (i = 1; i <= n; i++)
                out = out (i > 1 ? "`" : "") (i % 2 ? part[i] : substr(part[i], 1, 40))
            return out
        }
        { refused = sub(/^.*: refused, as it must be/, ""); text = words($0) }
        END {
            if (!refused) print "not refused"
            else if (text ~ /only by a limit|gave up|bound of its own|broke off|given up|resource limit|step limit|ran out|would have made more|came back to a goal/)
                print "a limit"
            else if (text ~ /only because a proof file names|has no `|not in scope|no such name|arguments? more than|is not a function|takes no argument/)
                print "a missing name"
            else if (text !~ /: (error|it is not proved)/) print "no error"
            else if (text ~ /it is not proved/) print "a search that does not close"
            else if (text ~ /the goal does not follow/) print "a number that fails"
            else if (text ~ /differ|expected type `|the two types are|one side reads/) print "two values that differ"
            else if (text ~ /as the last argument|no occurrence/) print "an equation that is not there"
            else if (text ~ /`cc`/) print "a congruence that does not close"
            else if (text ~ /`search`|`grind`/) print "a search that does not close"
            else print "another"
        }' "$1"
}

# Names each edit with no row in ROOT's docs/MUST_FAIL.md, and each row with no edit.
unlisted() {
    page=$1/docs/MUST_FAIL.md
    [ -f "$page" ] || return 0
    for edit in "$1"/crates/*/must-fail/*.edit; do
        echo "$(basename "$(dirname "$(dirname "$edit")")")/$(basename "$edit" .edit)"
    done | sort > "$kinds.edits"
    grep -o '`[a-z_0-9]*/[a-z_0-9]*`' "$page" | tr -d '`' | sort -u > "$kinds.rows"
    comm -23 "$kinds.edits" "$kinds.rows" | sed 's/^/NO ROW in docs\/MUST_FAIL.md: /'
    comm -13 "$kinds.edits" "$kinds.rows" | sed 's/^/NO EDIT for this row of docs\/MUST_FAIL.md: /'
    rm -f "$kinds.edits" "$kinds.rows"
}

# judge LOG ROOT: prints "N KIND" for each kind, and names each edit that shows nothing.
judge() {
    kinds=$(mktemp) line=$(mktemp) bad=0
    for edit in "$2"/crates/*/must-fail/*.edit; do
        [ -f "$edit" ] || continue
        label=$(basename "$edit" .edit)
        crate=$(basename "$(dirname "$(dirname "$edit")")")
        kind="not in the log"
        # an edit that is tried twice has its last word
        if grep -F "must-fail $crate/$label.edit: " "$1" > "$line"; then
            tail -n 1 "$line" > "$line.last"
            kind=$(kind_of "$line.last")
        fi
        echo "$kind" >> "$kinds"
        case $kind in
        "not in the log" | "not refused" | "no error" | "a limit" | "a missing name" | another)
            echo "SHOWS NOTHING: $crate/$label: $kind"
            bad=$((bad + 1))
            ;;
        esac
    done
    sort "$kinds" | uniq -c
    edits=$(wc -l < "$kinds")
    lost=$(unlisted "$2")
    [ -z "$lost" ] || echo "$lost"
    rm -f "$kinds" "$line" "$line.last"
    echo "must-fail edits: $((edits)), of which show nothing: $bad"
    [ "$bad" -eq 0 ] && [ -z "$lost" ] && [ "$edits" -gt 0 ]
}

# made ROOT LABEL [WORDS]: an edit, and what the log says of it; nothing if there are no words.
made() {
    at=$1/crates/made/must-fail
    mkdir -p "$at"
    echo "file: src/lib.rt" > "$at/$2.edit"
    [ $# -lt 3 ] || printf 'rt: must-fail made/%s.edit: %s\n' "$2" "$3" >> "$1/log"
}

# The words of a refusal by this error.
by() { echo "refused, as it must be: $1"; }

# refused LABEL [WORDS]: a root with a good edit and this one is not let through.
refused() {
    root=$(mktemp -d)
    made "$root" good "$(by "./p/Answers.antt:1:1: error: \`returns\`: the two types differ only where one has \`1\`")"
    made "$root" "$@"
    if judge "$root/log" "$root" > "$root/out" || ! grep -q "SHOWS NOTHING: made/$1: " "$root/out"; then
        cat "$root/out"
        echo "self-test: $1 was let through" >&2
        exit 1
    fi
    rm -rf "$root"
}

# judged WORDS ROOT: the log of ROOT is refused with these words.
judged() {
    if judge "$2/log" "$2" > "$2/out" || ! grep -q "$1" "$2/out"; then
        cat "$2/out"
        echo "self-test: let through where it had to say: $1" >&2
        exit 1
    fi
}

self_test() {
    refused cc_limit "$(by "./p/Answers.antt:9:13: error: \`returns\`: \`cc\` met a bound of its own before the equations had joined \`a\` and \`b\`")"
    refused omega_limit "$(by "./p/Answers.antt:9:13: error: \`fits\`: \`omega\` stopped at a bound of its own: the goal has more than 64 parts")"
    refused search_limit "$(by "./p/Answers.antt:9:13: error: \`fits\`: \`search\` broke off: the call's work took more than 1000 steps")"
    refused gave_up "$(by "note: src/lib.rt:55:1: it is not proved that what the function ensures holds when it returns; \`search\` gave up at one of its limits")"
    refused limit "refused, as it must be (only by a limit of the prover, which gave no verdict): ./p/Answers.antt:9:13: error: \`fits\`"
    refused name "refused, as it must be (only because a proof file names what the edit took away, so this says little of the contract): ./p/Answers.antt:2:1: error"
    refused scope "$(by "./p/Answers.antt:2:1: error: \`x\` is not in scope")"
    refused silent "refused, as it must be"
    refused strange "$(by "./p/Answers.antt:2:1: error: words that are not known here")"
    refused missing
    refused proved "NOT REFUSED: the crate is still proved with this edit"
    refused unread "BAD EDIT: an 'old:' text is in src/lib.rt 0 times, and not once"
    root=$(mktemp -d)
    made "$root" good "$(by "./p/Answers.antt:1:1: error: \`returns\`: the two types differ only where one has \`1\`")"
    mkdir "$root/docs"
    echo '| `made/good` | and `made/gone`' > "$root/docs/MUST_FAIL.md"
    judged "NO EDIT .*: made/gone" "$root"
    echo 'nothing' > "$root/docs/MUST_FAIL.md"
    judged "NO ROW .*: made/good" "$root"
    rm -rf "$root"
    root=$(mktemp -d)
    : > "$root/log"
    judged "must-fail edits: 0" "$root"
    # the words of a limit in a quoted term are no limit
    made "$root" differ "$(by "./p/Answers.antt:1:1: error: \`returns\`: the two types first differ where one has \`a long term of the code that a tactic was given: it has no limit and broke off\`")"
    made "$root" number "$(by "./p/Answers.antt:1:1: error: \`returns\`: \`omega\`: the goal does not follow from what it read.")"
    made "$root" left "$(by "./p/Answers.antt:1:1: error: \`returns\`: give a proof of that as the last argument, \`rw L t\`")"
    made "$root" closes "$(by "note: src/lib.rt:1:1: it is not proved that what the function ensures holds")"
    judge "$root/log" "$root" > "$root/out" || {
        cat "$root/out"
        echo "self-test: good logs were refused" >&2
        exit 1
    }
    rm -rf "$root"
    echo "self-test: twelve edits that show nothing were refused, an edit with no row, a row with no edit and no edit at all too, and four that show a fact let through"
}

here=$(dirname "$0")/../..
case $#:${1:-} in
1:--self-test) self_test ;;
0:) judge "$here/target/rt-ci.log" "$here" ;;
1:*) judge "$1" "$here" ;;
2:*) judge "$1" "$2" ;;
*)
    echo "usage: $0 [LOG [ROOT] | --self-test]" >&2
    exit 2
    ;;
esac
