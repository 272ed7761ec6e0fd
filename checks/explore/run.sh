#!/usr/bin/env bash
# Runs pt_explore on each case, and compares what it does with what is stored.
#
#   checks/explore/run.sh
#
# NAME.args has the words of a case, one a line; files are named from the top of the repository. NAME.stdout is what the
# program must print, NAME.stderr what it must print on standard error (nothing if it is not there), and NAME.status its
# status (0 if it is not there). NAME.expected has the outcomes that a case expects. race_page.names has the counts and the names
# on the page of the race's schedule.
#
# The scripts of checks/examples have one case each, with the numbers of schedules and
# outcomes that a model apart from this program counted; docs/EXPLORE.md has the race and how it is mended. In apart.json
# three desks take three turns each and never meet, so there are 9! / (3! 3! 3!) schedules. Some cases are run on two and on
# four threads too. The programs are bin/pt_explore, bin/pt_run and bin/pt_audit, which are built first if they are not up to date.
set -euo pipefail
shopt -s nullglob

here=$(cd "$(dirname "$0")" && pwd)
source "$here/../../.ci/cases"
"$root/.ci/build" pt_audit pt_explore pt_run
room=$root

for case in "$here"/*.args; do
    file=${case%.args}
    name=$(basename "$file")
    mapfile -t words <"$case"
    run pt_explore "$name" /dev/null "${words[@]}"
    sed -i 's/^Usage: [^ ]*/Usage: pt_explore/' "$work/err/$name" "$work/out/$name"
    wanted=$file.stdout
    [ -f "$wanted" ] || wanted=/dev/null
    is_same "$wanted" "$work/out/$name" "$name" "what it prints"
    said=$file.stderr
    [ -f "$said" ] || said=/dev/null
    is_same "$said" "$work/err/$name" "$name" "standard error"
    status=0
    [ ! -f "$file.status" ] || status=$(cat "$file.status")
    has_status "$name" "$status"
done

# `rt ci` runs the program over this script, and compares what it prints with this file.
run pt_explore as_the_gate_runs_it "$root/crates/pt_explore/stdin"
is_same "$root/crates/pt_explore/stdout" "$work/out/as_the_gate_runs_it" as_the_gate_runs_it "what it prints"

# A file of expected outcomes whose lines end with CR LF says the same.
sed 's/$/\r/' "$here/race.expected" >"$work/returns.expected"
run pt_explore race_file_returns /dev/null checks/explore/race.json --order turns --expect-file "$work/returns.expected"
is_same "$here/race_file.stdout" "$work/out/race_file_returns" race_file_returns "what it prints"
is_same /dev/null "$work/err/race_file_returns" race_file_returns "standard error"
has_status race_file_returns 0

# On several threads the same is printed, where all schedules are run and where there are more than the limit.
for name in after_turns mended_first race race_all race_budget race_chart race_either race_first race_first_at_limit race_first_limit race_first_one \
    race_first_steps race_limit race_one race_turns race_waiting unlink threads; do
    mapfile -t words <"$here/$name.args"
    for jobs in 2 4; do
        run pt_explore "$name-$jobs" /dev/null "${words[@]}" --jobs "$jobs"
        is_same "$here/$name.stdout" "$work/out/$name-$jobs" "$name-$jobs" "what it prints on $jobs threads"
        is_same /dev/null "$work/err/$name-$jobs" "$name-$jobs" "standard error"
        status=0
        [ ! -f "$here/$name.status" ] || status=$(cat "$here/$name.status")
        has_status "$name-$jobs" "$status"
    done
done

# So it is where they share the states that as many moves lead to. In wide.json three processes send each other messages, and
# hundreds of states are reached by as many moves.
for name in after erlang_causal erlang_first erlang_limit erlang_reduced erlang_wide lock_unwatched lock_watched_reduced moves_chart moves_cross moves_first moves_first_cut moves_first_met moves_first_one moves_history moves_limit moves_limit_exact \
    moves_one moves_race moves_reduced moves_reduced_limit moves_shared moves_turns moves_waiting moves_wide moves_wide_cut \
    moves_wide_limit moves_wide_reduced; do
    mapfile -t words <"$here/$name.args"
    for jobs in 2 4; do
        run pt_explore "$name-$jobs" /dev/null "${words[@]}" --jobs "$jobs"
        wanted=$here/$name.stdout
        [ -f "$wanted" ] || wanted=/dev/null
        is_same "$wanted" "$work/out/$name-$jobs" "$name-$jobs" "what it prints on $jobs threads"
        said=$here/$name.stderr
        [ -f "$said" ] || said=/dev/null
        is_same "$said" "$work/err/$name-$jobs" "$name-$jobs" "standard error"
        status=0
        [ ! -f "$here/$name.status" ] || status=$(cat "$here/$name.status")
        has_status "$name-$jobs" "$status"
    done
done

# The schedule that is told can be run again: the same history, byte for byte.
is_same "$work/out/race_history" "$work/out/race_again" race_again "the history of the schedule"
is_same "$work/out/moves_history" "$work/out/moves_again" moves_again "the history of the schedule of moves"

# So can each schedule of moves that is told: it ends as is told of it, and its history is legal.
ran[again]=1
python3 "$here/again.py" "$root/bin/pt_explore" "$root/bin/pt_audit" || wrong again "a schedule of moves is another one again"

# The page of a schedule is the frame that each page has, with its steps, its counts and the names of the script.
for name in race_page named_page; do
    words=(checks/explore/race.json --order turns --print page)
    [ "$name" = race_page ] || words+=(--schedule 0,1,1,1,0)
    run pt_explore "$name" /dev/null "${words[@]}"
    python3 "$here/held.py" <"$work/out/$name" >"$work/out/$name-held" || wrong "$name" "it is no page"
    cat "$here/race_steps.stdout" "$here/race_page.names" | is_same - "$work/out/$name-held" "$name" "what the page holds"
    is_same /dev/null "$work/err/$name" "$name" "standard error"
    has_status "$name" 0
done

# A person who looks on is told how far it is; a file of standard error (above) is told nothing.
ran[watched]=1
python3 "$here/watched.py" "$root/bin/pt_explore" >"$work/watched" || wrong watched "$(cat "$work/watched")"

# On a terminal a refused script is explained, with the word that may be meant.
for name in scope operation meant; do
    refused=$here/../examples/refused/explained_$name.json
    ran[on_a_terminal_$name]=1
    "$here/../examples/explained_on_a_terminal.py" "$root/bin/pt_explore" "$refused" >"$work/terminal"
    cmp "$refused.stderr" "$work/terminal" || wrong "on_a_terminal_$name" "it says something else"
done

# So is a file that is not there.
ran[no_file]=1
printf 'file refused\nthe script was not read: No such file or directory (os error 2)\n' >"$work/said"
"$here/../examples/explained_on_a_terminal.py" "$root/bin/pt_explore" "$work/nowhere" >"$work/terminal"
cmp "$work/said" "$work/terminal" || wrong no_file "it says something else"

# Of random scripts it counts the states and the schedules of moves that a model apart from it has.
ran[moves]=1
python3 "$here/moves.py" "$root/bin/pt_explore" || wrong moves "the model counts otherwise"

# The first state that meets a condition is that of the model.
ran[never]=1
python3 "$here/never.py" "$root/bin/pt_explore" || wrong never "the model stops at another state"

# Schedules with so many switches at most are those of the model.
ran[switches]=1
python3 "$here/switches.py" "$root/bin/pt_explore" || wrong switches "the model counts otherwise"

# By moves it stops at the shortest schedule of all that are not as expected.
ran[first_moves]=1
python3 "$here/first_moves.py" "$root/bin/pt_explore" || wrong first_moves "it stops elsewhere"

# Schedules by priorities are those that orders of the desks give, and the page has the numbers of what they find.
ran[by_chance]=1
python3 "$here/by_chance.py" "$root/bin/pt_explore" || wrong by_chance "another schedule, or other numbers on the page"

# So are schedules of moves: a model draws the same ones.
ran[drawn_moves]=1
python3 "$here/drawn_moves.py" "$root/bin/pt_explore" || wrong drawn_moves "the model draws others"

# A run on threads ends as a schedule of moves does.
ran[on_threads]=1
scripts=("$here"/moves_{causal,cross,glare,same_desk}.json "$here"/{race,mended,after,repeat,lock_unwatched}.json)
python3 "$here/on_threads.py" "$root/bin/pt_run" "${scripts[@]}" --runs 60 || wrong on_threads "a run on threads ends otherwise"

verdict explore
