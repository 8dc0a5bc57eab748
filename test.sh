#!/usr/bin/env bash
# All tests, after the line of the kit that runs them: that each wrong body applies; that docs/FORMATS.md lists the services of the
# table, and explanations name rules that there are; that the documents name the crates and calls that there are; that the parsers,
# helps, pages and completions have the options of their table; that the dossier has no dead link; the program on one
# example through real files; every proof, every wrong body of the gate's set, every test and each program as two compilers build
# it; the programs as their users run them, with the words of worked cases on standard error, on hostile texts and files, with logs
# of their outcomes and answers as JSON, at a terminal, installed and packed, in one command, and on many recordings; the search for
# orders, the walkthrough of the guide, the pictures and traces of apexview, and the recorder in C; each allocation refused in turn
# that a waiting set makes for its first entry; and so each of the program's, without rules, with options that ask for rules, with a
# rules file, with memories, with so many rules that several threads test them, with a message between partitions, and with several who
# wait at a blackboard; and each of apexview's, for a page, a picture, a trace and figures, and of apexmake's. Every part runs, also after
# one that fails. At the end come the costs of each crate and the counts of each part. The last line is their sum, `N passed, 0 failed`.
#
# `bash test.sh quick` shows without a proof, in minutes, that everything works. `bash audit.sh` tries all wrong bodies.
set -euo pipefail
cd "$(dirname "$0")"
case "${*:-}" in
    "") ;;
    quick) exec .ci/quick ;;
    *) echo "usage: test.sh [quick]" >&2; exit 2 ;;
esac
.ci/needs
# shellcheck source-path=SCRIPTDIR source=.ci/parts
source .ci/parts
rt version

# An example through real files, with a program that is not proved.
one_example() {
    local report
    report=$(bash examples/run timed_wait) && echo "$report" && [ "$report" = "$(cat examples/timed_wait/expected.txt)" ]
}

# The programs that `rt ci` builds. If it fails, those of an earlier run may be there, and are run.
link_programs() {
    local name
    for name in apexcheck apexorder apexview apexmake case_runner; do
        ln -s "$PWD/crates/$name/out/$name" "$programs/$name"
    done
    ln -s "$PWD/crates/part_tests/out/part_tests_tests" "$programs/part_tests_tests"
}

# Each allocation of a check of an example is refused in turn: NAME EXAMPLE [OPTION..].
allocations() {
    local example=examples/$2
    beside single "allocations, $1" bash .ci/refuse_allocations "$programs/apexcheck" --config "$example/config.toml" --order "$example/order.csv" \
        --workers 2 "${@:3}" "$example"/core*.csv
}

# Each allocation of a view of an example is refused in turn: FORMAT [OPTION..].
allocations_of_view() {
    local example=examples/missed_wake
    beside single "allocations of apexview, $*" bash .ci/refuse_allocations_of_view "$programs/apexview" --config "$example/config.toml" \
        --order "$example/order.csv" --format "$@" "$example"/core*.csv
}

parts_of_allocations() {
    local slow=examples/partition_waits_too_long number format
    beside single "allocations of a waiting set" bash .ci/refuse_in_test "$programs/part_tests_tests" queuing::a_refused_entry_comes_back 2
    beside single "allocations, the stored run" bash .ci/refuse_allocations "$programs/apexcheck"
    allocations "options" return_too_late --max-elapsed 1 --forbid STOP
    allocations "a rules file" partition_waits_too_long --rules $slow/rules.toml
    allocations "memories" command_answered_too_late --rules examples/command_answered_too_late/rules.toml
    for number in {1..15}; do
        printf '[[rule]]\nname = "rule %s"\nholds = { field = "elapsed", less = 100 }\n\n' "$number"
    done | cat - $slow/rules.toml > "$room/many_rules.toml"
    allocations "many rules" partition_waits_too_long --rules "$room/many_rules.toml"
    allocations "a message between partitions" message_to_another_partition
    allocations "messages from and to the outside" telemetry_departs
    allocations "readers of a blackboard" blackboard_wakes_its_readers
    for format in html svg trace summary json; do
        allocations_of_view "$format"
    done
    beside single "allocations of apexmake" bash .ci/refuse_allocations_of_maker "$programs/apexmake" --config examples/telemetry_departs/config.toml \
        --seed 1 --records 20
    allocations_of_view trace --axis time
    wait
}

parts_of_sources
single "one example" one_example
part "rt ci" .ci/time_by_crate "$room/times" rt ci
link_programs
part run_wrong_cases bash .ci/run_wrong_cases "$programs/case_runner"
parts_of_programs
parts_of_allocations
cat "$room/times" || true
sum_of_parts ""
