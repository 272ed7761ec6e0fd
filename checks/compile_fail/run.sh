#!/usr/bin/env bash
# Shows, in the compiler's words, that certain programs do not compile.
#
#   checks/compile_fail/run.sh
#
# Each line of cases.txt is 'PROGRAM | CRATES | WORDS': the program PROGRAM.rt.txt depends on those crates, and the
# compiler must refuse it with those words. A line without words is a program that must compile and run, which shows
# that the others are not refused for another reason. The crates and the programs are copied to a folder of their own
# and only compiled there, not proved. RT names another 'rt'.
#
# The programs that must be refused are modules of one crate, so that the crates below are read once for all. An error
# of one kind can hide those of another. So the modules whose errors were found are left out, and the rest is compiled
# again, until no module is left or no further one is refused.
set -euo pipefail

here=$(cd "$(dirname "$0")" && pwd)
source "$here/../../.ci/copy"

# compile CRATE CRATES.. compiles a crate of the copy and runs it; what is said is in the file `said`.
compile() {
    local name=$1
    shift
    grep -q "^$name:" "$work/crates.txt" || echo "$name: $*" >>"$work/crates.txt"
    (cd "$work/crates/$name" && "$root/.ci/unproved.py" "$name" --steps 20000000 --seconds 60 --stdin /dev/null) \
        >"$work/said" 2>&1 </dev/null || true
}

passed=0
failed=0
wrong() {
    echo "WRONG: $1: $2"
    failed=$((failed + 1))
}

declare -A words=()
below=()
while IFS='|' read -r program crates told; do
    read -r program <<<"$program"
    read -r told <<<"${told-}"
    read -ra depends <<<"${crates-}"
    case $program in '' | '#'*) continue ;; esac
    if [ -n "$told" ]; then
        words[$program]=$told
        below+=("${depends[@]}")
        continue
    fi
    mkdir -p "$work/crates/$program/src"
    cp "$here/$program.rt.txt" "$work/crates/$program/src/main.rt"
    compile "$program" "${depends[@]}"
    if grep -q '^run=ended status=0 ' "$work/said"; then
        passed=$((passed + 1))
    else
        wrong "$program" "it does not compile and run"
        cat "$work/said"
    fi
done <"$here/cases.txt"

# Compiles the programs that are left, and takes out those that are refused with their words.
refuse_some() {
    local program left=${#words[@]}
    rm -rf "$work/crates/refused_programs"
    mkdir -p "$work/crates/refused_programs/src"
    {
        printf '#![tactic(auto)]\n'
        printf 'mod %s;\n' "${!words[@]}"
        printf 'fn main(_rt: HostRuntime) {}\n'
    } >"$work/crates/refused_programs/src/main.rt"
    for program in "${!words[@]}"; do
        cp "$here/$program.rt.txt" "$work/crates/refused_programs/src/$program.rt"
    done
    compile refused_programs "$(printf '%s\n' "${below[@]}" | sort -u | paste -sd ' ')"
    for program in "${!words[@]}"; do
        grep "^src/$program\.rt:" "$work/said" | grep -qF -- "${words[$program]}" || continue
        passed=$((passed + 1))
        unset "words[$program]"
    done
    [ "${#words[@]}" -lt "$left" ]
}

while [ "${#words[@]}" -gt 0 ] && refuse_some; do :; done
for program in "${!words[@]}"; do
    wrong "$program" "it is not refused with: ${words[$program]}"
done
[ "${#words[@]}" -eq 0 ] || cat "$work/said"

echo "compile_fail: $passed passed, $failed failed"
[ "$passed" -gt 0 ] && [ "$failed" -eq 0 ]
