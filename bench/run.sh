#!/usr/bin/env bash
# bench/run.sh [ROUNDS [PART..]]: builds the programs to measure, runs them in turn, so many rounds (5), and prints the tables
# of bench/RESULTS.md. A PART is desk, growth, slots, timers, lanes, threads, large, resting, judge, epochs, audit, scripts or bindings;
# with none, all.
#
# It works in the folder that ROOM names (/tmp/pundewo-bench), never in the repository. Needed on the path: rt, cargo and
# erl, and Debian's erlang-base, librust-slotmap-dev, librust-slab-dev, librust-indexmap-dev and
# librust-crossbeam-channel-dev; what lacks is left out, and said. The first build proves all crates below the programs.
set -uo pipefail
here=$(cd "$(dirname "$0")" && pwd)
repository=$(dirname "$here")
room=${ROOM:-/tmp/pundewo-bench}
rounds=${1:-5}
shift
parts=${*:-desk growth slots timers lanes threads large resting judge epochs audit scripts bindings}
ms=${MS:-20}
raw=$room/raw
wants() { [[ " $parts " == *" $1 "* ]]; }

# The crates of the repository, over what they and an earlier run keep in out/, and the programs beside them.
copy_crates() {
    mkdir -p "$room/crates" && cp "$repository/HANDLES" "$room/" || return
    cat "$repository/crates.txt" "$here/rattle/crates" >"$room/crates.txt"
    local name file
    for name in $(sed -nE 's/^([a-z_]+)[ :].*/\1/p' "$repository/crates.txt"); do
        mkdir -p "$room/crates/$name"
        (cd "$room/crates/$name" && rm -rf src specs proofs)
        for file in src specs proofs out; do
            [ -e "$room/crates/$name/$file" ] || [ ! -e "$repository/crates/$name/$file" ] ||
                cp -a "$repository/crates/$name/$file" "$room/crates/$name/"
        done
    done
    # the gate reads each .rt and .antt of the repository, so these are kept under other names
    (cd "$here/rattle" && find . -name '*.txt') | while read -r file; do
        case $file in *.antt.txt) name=${file#./} ;; *) name=$(dirname "${file#./}")/src/$(basename "$file") ;; esac
        mkdir -p "$(dirname "$room/crates/$name")"
        cp "$here/rattle/$file" "$room/crates/${name%.txt}"
    done
}

# Builds a program, and runs it once with these words, or others that give it little to do.
build_rattle() {
    local name=$1
    shift
    (cd "$room/crates/$name" && rt run -- ${*:-0 none} >"$room/$name.log" 2>&1) || echo "not built: $name, see $room/$name.log"
}

build() {
    copy_crates
    if wants desk || wants growth || wants bindings; then build_rattle pt_bench_desk; fi
    if wants slots; then build_rattle pt_bench_slots; fi
    if wants timers; then build_rattle pt_bench_timers 1000 1; fi
    if wants lanes; then build_rattle pt_bench_lanes; fi
    if wants threads; then build_rattle pt_bench_threads hand way 1 1000; fi
    if wants large; then build_rattle pt_bench_large events 1000; fi
    if wants resting; then build_rattle pt_bench_resting idle 0 1; fi
    if wants judge; then build_rattle pt_bench_judge; fi
    if wants epochs; then build_rattle pt_bench_epochs; fi
    if wants audit; then
        (cd "$room/crates/pt_audit" && rt run </dev/null >"$room/pt_audit.log" 2>&1) || echo "not built: pt_audit"
        for waiting in 0 100 10000; do "$here/history.py" 1000000 1000 "$waiting" >"$room/history-$waiting"; done
    fi
    if wants scripts; then
        (cd "$room/crates/pt_run" && rt run <stdin >"$room/pt_run.log" 2>&1) || echo "not built: pt_run"
    fi
    (cd "$here/rust" && CARGO_TARGET_DIR="$room/rust" cargo build --release --offline --quiet) || echo "not built: rust"
    mkdir -p "$room/erlang" && erlc -o "$room/erlang" "$here"/erlang/*.erl || echo "not built: erlang"
}

# Each line of what a program prints, with the setting of memory before it.
run() {
    local setting=$1 program=$2
    shift 2
    [ -x "$(command -v "$program")" ] || return 0
    timeout 60 "$program" "$@" | sed -n "s/^[a-z].* [0-9]*$/$setting &/p" >>"$raw"
}

# How many events of a history of 1,000,000 are audited in a second of processor time.
audited() {
    local seconds
    seconds=$({ TIMEFORMAT='%U %S' && time "$room/crates/pt_audit/out/pt_audit" "$room/history-$1" >/dev/null; } 2>&1)
    awk -v waiting="$1" '{ printf "plain audit waiting_%s %d\n", waiting, 1000000 / ($1 + $2) }' <<<"$seconds" >>"$raw"
}

# How many turns of a script with one process that only waits, on a desk of 65,536 slots, are taken in a second of
# processor time, in so many epochs.
waited() {
    local seconds script=$room/waits.json
    echo '{"format":1,"desks":1,"slots":65536,"processes":[{"name":"a","desk":0,"ops":[{"op":"receive"}]}]}' >"$script"
    seconds=$({ TIMEFORMAT='%U %S' && time "$room/crates/pt_run/out/pt_run" "$script" --turns 1000000 --epochs "$1" >/dev/null; } 2>&1)
    awk -v epochs="$1" '{ printf "plain scripts waits_%s %d\n", epochs, 1000000 * epochs / ($1 + $2 + 0.001) }' <<<"$seconds" >>"$raw"
}

# How often in a thousand seconds of processor time a script is run and its chart is drawn. It is of so many processes,
# each of which sends the next a message and takes one.
charted() {
    local seconds script=$room/ring-$1.json
    awk -v count="$1" 'BEGIN {
        printf "{\"format\":1,\"desks\":4,\"slots\":4096,\"processes\":["
        for (at = 0; at < count; at++)
            printf "%s{\"name\":\"p%d\",\"desk\":%d,\"ops\":[{\"op\":\"send\",\"to\":\"p%d\",\"kind\":1,\"num\":%d},{\"op\":\"receive\"}]}",
                at ? "," : "", at, at % 4, (at + 1) % count, at
        print "]}"
    }' >"$script"
    seconds=$({ TIMEFORMAT='%U %S' && time "$room/crates/pt_run/out/pt_run" "$script" --print chart >/dev/null; } 2>&1)
    awk -v count="$1" '{ printf "plain scripts ring_%s %d\n", count, 1000 / ($1 + $2 + 0.001) }' <<<"$seconds" >>"$raw"
}

# The kilobytes that a program has in memory when it is done, and had at most, and the pages that it was handed.
remembered() {
    local name=$1
    shift
    "$here/memory.py" "$@" | sed -n "s/^\([0-9]*\) \([0-9]*\) \([0-9]*\)$/\
plain memory now_$name \1\nplain memory most_$name \2\nplain memory faults_$name \3/p" | sed '/^$/d' >>"$raw"
}

# So many epochs of 100,000 events on four desks, without their histories and with them, and so many of 10,000 births on
# one desk. What a thing costs is told by the difference between two of them, so memory that births gave up goes back to
# the kernel at once.
given_back="MALLOC_MMAP_THRESHOLD_=65536 MALLOC_TRIM_THRESHOLD_=65536"
remember_epochs() {
    local epochs=$1 count
    for count in 3 4 99 100; do remembered "run_$count" "$epochs" run "$count" 100000; done
    for count in 3 100; do remembered "history_$count" "$epochs" run "$count" 100000 history; done
    for count in 100 200; do
        remembered "births_$count" env $given_back "$epochs" births "$count" 10000 1
    done
}

# Each shape on so many desks, threads or schedulers, one program after the other; and two of them by crews, on desks
# that turn without an end and on desks that rest.
shapes_on_threads() {
    local program=$room/crates/pt_bench_threads/out/pt_bench_threads shape count
    for shape in own all ring way; do
        for count in 1 2 4 8; do
            [ "$shape" != way ] || [ "$count" -le 2 ] || continue
            run plain "$program" hand "$shape" "$count"
            if [ "$shape" = ring ] || [ "$shape" = all ]; then
                run plain "$program" crew "$shape" "$count"
                run plain "$program" rest "$shape" "$count"
            fi
            run plain "$room/rust/release/actors" "$shape" "$count"
            (cd "$room/erlang" && run plain erl +S "$count:$count" -noshell -run threads main "$shape" "$count")
            run huge env $huge "$program" hand "$shape" "$count"
            run huge env $huge "$room/rust/release/actors" "$shape" "$count"
        done
    done
}

# How many instructions a message takes on one desk or thread, by what 20,480 take more than 10,240; and a step of a crew
# beside idle processes.
count_instructions() {
    local program=$room/crates/pt_bench_threads/out/pt_bench_threads actors=$room/rust/release/actors shape count
    for shape in own all ring way; do
        note_instructions "hand_$shape" "$program" hand "$shape" 1 10240 -- "$program" hand "$shape" 1 20480
        for keeping in actors actors-bare; do
            note_instructions "${keeping}_$shape" "$actors" "$shape" 1 10240 $keeping -- "$actors" "$shape" 1 20480 $keeping
        done
    done
    for shape in all ring; do
        note_instructions "crew_$shape" "$program" crew "$shape" 1 10240 -- "$program" crew "$shape" 1 20480
    done
    for count in 10 1000 65000; do
        run plain "$program" idle "$count"
        note_instructions "idle_$count" "$program" idle "$count" 10240 -- "$program" idle "$count" 20480
    done
}
note_instructions() { # NAME FEW.. -- MANY..
    local name=$1 few=()
    shift
    while [ "$1" != -- ]; do few+=("$1"); shift; done
    shift
    echo "plain instructions $name $((($(counted "$@") - $(counted "${few[@]}")) / 10240))" >>"$raw"
}
counted() { valgrind --tool=callgrind --callgrind-out-file=/dev/null "$@" 2>&1 | sed -n 's/.*Collected : *//p'; }

# What a node of so many processes has in memory, and what is done with one of so many events.
large_nodes() {
    local program=$room/crates/pt_bench_large/out/pt_bench_large each count
    for each in bare item watch; do
        for count in 0 1000000; do remembered "processes_${count}_$each" "$program" processes "$count" "$each"; done
    done
    for count in 10000 100000 1000000 10000000; do run plain "$program" events "$count"; done
}

# The microseconds of processor time that a node takes which rests for ten seconds, for each of them; and how fast it wakes.
resting_node() {
    local program=$room/crates/pt_bench_resting/out/pt_bench_resting longest hops few many
    for longest in 10 1000 60000; do
        few=$(processor "$program" idle 0 "$longest")
        many=$(processor "$program" idle 10000 "$longest")
        echo "plain resting idle_$longest $((many > few ? (many - few) / 10 : 0))" >>"$raw"
    done
    for hops in 0 1 3 7; do run plain "$program" wake 1000 "$hops"; done
    run plain "$room/rust/release/wake" 1000
}
processor() { perf stat -x ' ' -e task-clock "$@" 2>&1 | awk '/task-clock/ { printf "%d\n", 1000 * $1 }'; }

kept="MALLOC_MMAP_THRESHOLD_=8000000000 MALLOC_TRIM_THRESHOLD_=16000000000 MALLOC_TOP_PAD_=67108864"
huge="GLIBC_TUNABLES=glibc.malloc.hugetlb=1"

# As many messages there and back on a node that goes on every 9,999 events as on one whose journal grows.
ping_epochs() {
    local epochs=$1
    run plain "$epochs" ping 300 3333
    run plain "$epochs" ping 1 999900
    run huge env $huge "$epochs" ping 300 3333
    run huge env $huge "$epochs" ping 1 999900
    run slots "$epochs" ping 300 3333 65536
    run slots "$epochs" ping 1 999900 65536
    run live10 "$epochs" ping 300 3333 65536 10
    run live10 "$epochs" ping 1 999900 65536 10
    run live10000 "$epochs" ping 300 3333 65536 10000
    run live10000 "$epochs" ping 1 999900 65536 10000
}

one_round() {
    local desk=$room/crates/pt_bench_desk/out/pt_bench_desk
    if wants desk; then
        run plain "$room/rust/release/desk" "$ms"
        run plain "$desk" "$ms"
        run kept env $kept "$room/rust/release/desk" "$ms"
        run kept env $kept "$desk" "$ms"
        run huge env $huge "$room/rust/release/desk" "$ms"
        run huge env $huge "$desk" "$ms"
        (cd "$room/erlang" && run plain erl +S 1:1 +sbwt none -noshell -run bench main)
    fi
    if wants growth; then
        run plain "$room/rust/release/desk" growth
        run plain "$desk" growth
    fi
    if wants slots; then
        run plain "$room/rust/release/slots" "$ms"
        run plain "$room/crates/pt_bench_slots/out/pt_bench_slots" 40
    fi
    if wants timers; then
        run plain "$room/crates/pt_bench_timers/out/pt_bench_timers"
        (cd "$room/erlang" && run plain erl +S 1:1 +sbwt none -noshell -run timers main)
    fi
    if wants lanes; then
        run plain "$room/crates/pt_bench_lanes/out/pt_bench_lanes" 3
        run plain "$room/rust/release/channels" 3
    fi
    if wants threads; then
        shapes_on_threads
        count_instructions
    fi
    if wants large; then large_nodes; fi
    if wants resting; then resting_node; fi
    if wants judge; then
        run plain "$room/crates/pt_bench_judge/out/pt_bench_judge" 125000
        run plain "$room/crates/pt_bench_judge/out/pt_bench_judge" 1000000
    fi
    if wants epochs; then
        run plain "$room/crates/pt_bench_epochs/out/pt_bench_epochs"
        for ends in 1000 100000 1000000; do run plain "$room/crates/pt_bench_epochs/out/pt_bench_epochs" pause "$ends"; done
        ping_epochs "$room/crates/pt_bench_epochs/out/pt_bench_epochs"
        remember_epochs "$room/crates/pt_bench_epochs/out/pt_bench_epochs"
    fi
    if wants audit; then
        for waiting in 0 100 10000; do audited "$waiting"; done
    fi
    if wants scripts; then
        for epochs in 1 2 3; do waited "$epochs"; done
        for count in 1024 4096; do charted "$count"; done
    fi
    if wants bindings; then
        run plain "$desk" "$ms" ping_pong
        "$repository/bindings/run.sh" --speed
    fi
}

mkdir -p "$room"
[ -n "${BUILT:-}" ] || build
: >"$raw"
for _ in $(seq "$rounds"); do one_round; done
echo "$(date -u +%FT%TZ), $(nproc) processors, load $(cut -d' ' -f1-3 /proc/loadavg), rounds: $rounds"
python3 "$here/table.py" "$raw"
