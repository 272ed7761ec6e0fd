#!/usr/bin/env bash
# Runs the tests that are not proved, and those of test_calls with them.
#
#   checks/tried/run.sh [CRATE..]      all, or those of these crates: test_calls, pt_scripts
#
# Each CRATE/NAME.rt.txt is a module of tests. The modules of test_calls join the proved tests in a copy of that crate, so
# that one compilation serves both; those of pt_scripts make a crate of their own, since all together would take 4 GB.
# They are compiled and run there, and not proved: what they call is proved, and a program or a proved test makes each
# call too. Each #[test] has to be run and to pass. RT names another 'rt'.
#
# No other test and no proof says what they find, so the gate runs them too. But with PT_PROVING=1 they are compiled without the
# checks of each access to memory, as the gate has it. All that they call is proved beside them there, and a proof leaves no
# bad access. The tests themselves have no unsafe code, and stop at an index out of bounds.
set -euo pipefail

here=$(cd "$(dirname "$0")" && pwd)

# The crates that only these tests call.
declare -A calls=(
    [test_calls]='pt_events pt_children pt_auditor pt_accounts pt_directory pt_desk pt_scheduler pt_epochs pt_pauses pt_scheduler_laws pt_schedules'
    [pt_scripts]='pt_node pt_script pt_runner pt_chart pt_options pt_report clap'
)
[ $# -gt 0 ] || set -- test_calls pt_scripts
plain=()
[ -z "${PT_PROVING-}" ] || plain=(--plain)
for crate in "$@"; do
    [ -n "${calls[$crate]-}" ] || { echo "run.sh: no tests of '$crate' here: ${!calls[*]}" >&2; exit 2; }
done

source "$here/../../.ci/copy"
mkdir -p "$work/crates/pt_scripts/src"
printf '#![tactic(auto)]\n' >"$work/crates/pt_scripts/src/lib.rt"
echo 'pt_scripts tests_may=Threads:' >>"$work/crates.txt"

# Makes the modules of a crate part of it.
add_modules() {
    local crate=$1 sources=$work/crates/$1/src file name
    mkdir "$sources/tried"
    for file in "$here/$crate"/*.rt.txt; do
        name=$(basename "$file" .rt.txt)
        cp "$file" "$sources/tried/$name.rt"
        echo "mod $name;" >>"$sources/tried.rt"
    done
    printf '\n#[cfg(test)]\nmod tried;\n' >>"$sources/lib.rt"
    sed -i "/^$crate .*:/s/\$/ ${calls[$crate]}/" "$work/crates.txt"
}

passed=0
wanted=0
fine=true
for crate in "$@"; do
    add_modules "$crate"
    status=0
    (cd "$work/crates/$crate" && "$root/.ci/unproved.py" "$crate" --test --seconds 300 --stdin /dev/null "${plain[@]}") \
        >"$work/said" 2>&1 </dev/null || status=$?
    count=$(cat "$work/crates/$crate/src"/*.rt "$work/crates/$crate/src"/*/*.rt | grep -c '^ *#\[test\]')
    ok=$(grep -c '^test .* \.\.\. ok$' "$work/said" || true)
    if [ "$status" -ne 0 ] || [ "$ok" -ne "$count" ]; then
        cat "$work/said"
        fine=false
    fi
    echo "$crate: $ok of $count tests passed"
    passed=$((passed + ok))
    wanted=$((wanted + count))
done
echo "tried: $passed passed, $((wanted - passed)) failed"
$fine && [ "$passed" -gt 0 ]
