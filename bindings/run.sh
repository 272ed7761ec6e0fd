#!/usr/bin/env bash
# Builds the static library and what stands over it, and runs all of it: C, Rust and Python play one table of calls, the
# worked rows of checks/rows and those of crews, and compare each answer; each compares its structs and codes with what the
# library says of itself; the C examples run under valgrind. Before that it compares what each has of the interface with the
# sources (bindings/abi.py).
#
#   bindings/run.sh           everything, over an archive of `rt lib`, which proves what it has not proved yet
#   bindings/run.sh --gate    everything, over an archive that is built on the libraries which `rt ci` has just proved
#                             and left in this tree: the library itself is checked once more, and nothing below it. It
#                             keeps what it built (bindings/proved.py), and tests the packages (bindings/packages.py)
#   bindings/run.sh --tools   only says which tools are missing
#   bindings/run.sh --speed   the ping-pong through C, Rust and Python, and what the calls of C cost
#
# PT_C_ARCHIVE names an archive that was built before, and RT another 'rt'. Nothing is passed over: where a tool is
# missing the script says which, and how it is had, and fails.
set -euo pipefail

mode=${1:-all}
here=$(cd "$(dirname "$0")" && pwd)
bench=$here/../bench/bindings
rt=${RT:-rt}

missing=0
needs() { # TOOL WHAT-FOR HOW
    command -v "$1" >/dev/null || { echo "bindings: missing: $1, for $2: $3"; missing=1; }
}
needs "$rt" "the archive" "it is the toolchain's own command"
needs cc "the C examples" "apt-get install gcc libc6-dev"
needs cargo "the Rust crate" "apt-get install cargo, or https://rustup.rs (1.85 or later; 1.88 for the packages)"
needs python3 "the Python module" "apt-get install python3 (3.9 or later)"
if [ "$mode" = --gate ] || [ "$mode" = --tools ]; then
    needs make "the packages" "apt-get install make"
    needs c++ "the packages" "apt-get install g++"
    needs pkg-config "the packages" "apt-get install pkg-config"
    needs dpkg-deb "the packages" "apt-get install dpkg"
    needs dpkg-shlibdeps "the packages" "apt-get install dpkg-dev"
    needs unshare "the packages" "apt-get install util-linux"
fi
[ "$missing" -eq 0 ] || exit 1
if ! cargo clippy --version >/dev/null 2>&1; then
    echo "bindings: no clippy: the Rust crate is not linted (rustup component add clippy; apt-get install rust-clippy)"
fi
if ! command -v mypy >/dev/null; then
    echo "bindings: no mypy: the types of the Python package are not checked (apt-get install mypy)"
fi
# (only what is wrong with memory shows under it)
if ! command -v valgrind >/dev/null; then
    echo "bindings: no valgrind: the memory of the C examples is not looked at (apt-get install valgrind libc6-dbg)"
fi
# (Debian's crates: the line server is built without a network)
debian=/usr/share/cargo/registry
has_tokio=false
for crate in "$debian"/tokio-1.*; do
    [ ! -d "$crate" ] || has_tokio=true
done
if ! $has_tokio; then
    echo "bindings: no tokio: the line server of tasks is not tried (apt-get install librust-tokio-dev)"
fi
if ! python3 -c 'import pytest' 2>/dev/null && ! /usr/bin/python3 -c 'import pytest' 2>/dev/null; then
    echo "bindings: no pytest: scenarios are not run by it (apt-get install python3-pytest)"
fi
if ! command -v chromium >/dev/null; then
    echo "bindings: no chromium: the page of a run is not opened (apt-get install chromium)"
fi
# (the node of an Erlang cluster is tried where OTP is)
"$here/erlang/run.sh" --tools
[ "$mode" != --tools ] || exit 0

"$here/abi.py"

work=$(mktemp -d)
trap 'rm -rf "$work"' EXIT
mkdir "$work/lib"

# The archive: one that was given, what the gate left of the same sources, or one that is built now.
given=${PT_C_ARCHIVE:-}
over=
[ "$mode" != --gate ] || over=--gate
if [ -n "$given" ]; then
    cp "$given" "$work/lib/libpt_c.a"
elif [ "$mode" != --gate ] && kept=$("$here/proved.py" 2>/dev/null); then
    cp "$kept/libpt_c.a" "$work/lib/libpt_c.a"
else
    # shellcheck disable=SC2086 # (no word, or one)
    "$here/archive.sh" $over "$work/lib/libpt_c.a" >"$work/log" 2>&1 || { tail -n 30 "$work/log"; exit 1; }
fi

# The folder that a user builds: the header, both libraries, and what pkg-config reads.
export PT_C_ARCHIVE=$work/lib/libpt_c.a
"$here/build.sh" "$work/built" >"$work/printed"
if nm "$PT_C_ARCHIVE" | grep ' pt_c_is_not_proved$' >/dev/null; then
    grep ', not proved: ' "$work/printed" || { echo "bindings: a library that was not proved does not say so"; exit 1; }
fi
# (so that no later command proves it again; it writes docs/proved-files.txt)
if [ "$mode" = --gate ] && [ -z "$given" ]; then
    "$here/proved.py" --keep "$PT_C_ARCHIVE" "$work/built"
fi
c="cc -std=c11 -D_GNU_SOURCE -O2 -Wall -Wextra -Werror"
build() { # PROGRAM [FOLDER]
    $c -pthread -I "$work/built/include" -o "$work/$1" "${2:-$here/c}/$1.c" "$work/built/lib/libpundewo.a"
}
export PUNDEWO_LIB=$work/built/lib PUNDEWO_ROWS=$work/table PUNDEWO_SO=$work/built/lib/libpundewo.so
export CARGO_TARGET_DIR=$work/target PYTHONDONTWRITEBYTECODE=1

if [ "$mode" = --speed ]; then
    build ping_pong
    build calls "$bench"
    echo "C: $("$work/ping_pong")"
    (cd "$here/rust" && echo "Rust: $(cargo run -q --offline --release --example ping_pong)")
    (cd "$here/python" && echo "Python: $(PYTHONPATH=. python3 examples/ping_pong.py)")
    "$bench/instructions.sh" "$work/calls"
    exit
fi

# The page's own lines, the first block of its chapter on building, build an example and run it; the other examples are
# built by the same line.
commands=$(awk '/^## Building/ { here = 1 } here && /^```/ { fences++; next } here && fences == 1' \
    "$here/../docs/EMBEDDING.md")
by_the_page() { # SED-SCRIPT
    (
        cd "$work/page"
        rt() { command "$rt" "$@"; }
        eval "$(sed "$1" <<<"$commands")"
    )
}
mkdir -p "$work/page"
ln -s "$here" "$work/page/bindings"
by_the_page '' >"$work/printed"
for example in about asking bad_codes crew crew_load crew_supervisors elsewhere layout losses no_memory observe refused refused_supervisors \
    refused_tools resumed ring supervisor tools; do
    by_the_page "/^\.\//d; s/ping_pong/$example/g" >"$work/printed"
    [ -x "$work/page/$example" ] || { echo "bindings: the lines of docs/EMBEDDING.md do not build $example"; exit 1; }
done
echo "c: the lines of docs/EMBEDDING.md build the examples"

"$here/rows.py" >"$work/table"

# C, and C++ for the header
build about
build asking
build bad_codes
build crew
build crew_load
build crew_supervisors
build elsewhere
build layout
build rows
build supervisor
build tools
build ring
build resumed
build no_memory
build observe
build losses
build refused
build refused_supervisors
build refused_tools
"$work/about"
"$work/layout"
"$work/bad_codes"
"$work/crew_load"
"$work/elsewhere"
"$work/asking" | diff "$here/c/asking.out" -
"$work/crew" | diff "$here/c/crew.out" -
"$work/crew_supervisors" | diff "$here/c/crew_supervisors.out" -
"$work/rows" "$work/table"
"$work/no_memory"
"$work/losses"
"$work/refused"
"$work/refused_supervisors"
"$work/refused_tools"
"$work/supervisor" | diff "$here/c/supervisor.out" -
"$work/resumed" | diff "$here/c/resumed.out" -
"$work/tools" | diff "$here/c/tools.out" -
"$work/ring" >"$work/printed"
strict="-Wall -Wextra -Wpedantic -pedantic-errors -Werror -fsyntax-only"
cc -std=c99 $strict -x c "$here/c/pundewo_text.h"
for standard in c11 c17; do
    cc -std=$standard $strict "$here/c/layout.c"
done
for standard in c++11 c++20; do
    cc -x c++ -std=$standard $strict "$here/c/layout.c"
done
if command -v valgrind >/dev/null; then
    # (fair: four threads that spin would else wait for each other for minutes)
    memory="valgrind -q --fair-sched=try --error-exitcode=9 --leak-check=full --show-leak-kinds=all --errors-for-leak-kinds=all"
    for program in about asking bad_codes losses "rows $work/table" supervisor resumed tools "ring 20" crew crew_supervisors \
        elsewhere "crew_load 3000"; do
        $memory "$work/"$program >"$work/printed" 2>&1 \
            || { cat "$work/printed"; echo "valgrind: $program is not clean"; exit 1; }
    done
    echo "c: valgrind finds no error and no leak"
fi
echo "c: examples passed"

# A node of 20,000 processes that is watched while it runs, by slow and bad clients, too, and in a browser if there is one; the
# same under valgrind, with fewer. They end once all has been looked at: PUNDEWO_WATCHED has how
# many seconds they take at most.
page=$here/rust/src/runtime/observing/observer.html
watched=${PUNDEWO_WATCHED:-900}
timeout 1800 "$here/observed.py" "$work/observe" "$page" "$watched" 20000
if command -v valgrind >/dev/null; then
    # shellcheck disable=SC2086 # (words)
    timeout 1800 "$here/observed.py" $memory "$work/observe" "$page" "$watched" 300
fi
echo "c: the node that is watched passed"

# Rust: tests, examples of the documentation, the pages themselves, and lints
(
    cd "$here/rust"
    if cargo fmt --version >/dev/null 2>&1; then
        cargo fmt --all --check
    fi
    cargo test -q --offline --workspace
    # (the promises of the runtime, and the examples, under 100,000 schedules by chance)
    PUNDEWO_TRIALS=1800 cargo test -q --release --offline --test trial_runtime --test trial_examples
    RUSTDOCFLAGS="-D warnings" cargo doc -q --offline --no-deps --workspace
    cargo run -q --offline --example supervisor | diff "$here/c/supervisor.out" -
    cargo run -q --offline --example crew_supervisors | diff "$here/c/crew_supervisors.out" -
    cargo run -q --offline --example code_lock | diff examples/code_lock.out -
    cargo run -q --offline --example ring >"$work/printed"
    cargo run -q --offline --example ping_pong 200 >"$work/printed"
    if cargo clippy --version >/dev/null 2>&1; then
        cargo clippy -q --offline --workspace --all-targets -- -D warnings
        echo "rust: clippy finds nothing"
    fi
    for lib in /nowhere "$work"; do # there is no library
        if PUNDEWO_LIB=$lib CARGO_TARGET_DIR=$work/without cargo build -q --offline 2>"$work/printed"; then
            echo "rust: the crate was built without the library"
            exit 1
        fi
        grep -q "^  pundewo: PUNDEWO_LIB is $lib, and there is no libpundewo.a: run " "$work/printed"
    done
)
echo "rust: tests, pages and examples passed"

# Faults that are planted into the runtimes, each of which a trial finds
"$here/planted.py"

# The chat server under its load: nothing lost or out of order, each crash one DOWN, idle it rests, and its history is legal
"$here/../.ci/build" pt_audit >"$work/printed"
chat=$CARGO_TARGET_DIR/debug/examples
"$here/../.ci/bounded" 120 "$chat/chat_load" "$chat/chat" "$work/chat.history" 40 10 3 10
"$here/../bin/pt_audit" "$work/chat.history"
timeout 1800 "$here/bad_clients.py" "$chat/chat" 0 "$work/bad.history"
echo "rust: the chat server passed"

# The line server of tokio under its load, over Debian's crate of it: connections die in calls, servers crash, nothing is lost
if $has_tokio; then
    (
        cd "$here/rust/tokio"
        offline=(--offline --config 'source.crates-io.replace-with="debian"' --config "source.debian.directory=\"$debian\"")
        if cargo fmt --version >/dev/null 2>&1; then
            cargo fmt --check
        fi
        if cargo clippy --version >/dev/null 2>&1; then
            cargo clippy -q "${offline[@]}" -- -D warnings
        fi
        cargo build -q "${offline[@]}"
    )
    "$here/../.ci/bounded" 120 "$CARGO_TARGET_DIR/debug/pundewo_lines" 100 100
    echo "rust: the line server of tokio passed"
fi

# A node of an Erlang cluster, with real Erlang nodes, under load and with bad input: histories are legal
"$here/erlang/run.sh"

# The telephone exchange: lines crash in calls and are started again, each partner hears of it, and its history is legal
"$here/../.ci/bounded" 120 "$chat/exchange" "$work/exchange.history" 200 2>"$work/panics" || { tail -n 20 "$work/panics"; exit 1; }
"$here/../bin/pt_audit" "$work/exchange.history"
"$here/../.ci/bounded" 120 "$chat/exchange" "$work/exchange" 100 30000 2>"$work/panics" || { tail -n 20 "$work/panics"; exit 1; }
"$here/../bin/pt_audit" --save "$work/exchange.state" - </dev/null >"$work/printed"
for history in "$work"/exchange.000001.*; do
    "$here/../bin/pt_audit" --resume "$work/exchange.state" --save "$work/exchange.state" --complete "$history"
done
[ -e "$work/exchange.000001.000002" ] || { echo "rust: the history has one file"; exit 1; }
echo "rust: the telephone exchange passed"

# The exchange and the chat while their pages are looked at, by slow and bad clients, too, and in a browser if there is one:
# nothing is lost
timeout 1800 "$here/observed.py" "$chat/exchange" "$work/observed.history" 8000
"$here/../bin/pt_audit" "$work/observed.history"
timeout 1800 "$here/observed.py" --unsupervised "$chat/chat_load" "$chat/chat" "$work/observed_chat.history" 40 10 20 10 watched
"$here/../bin/pt_audit" "$work/observed_chat.history"
timeout 1800 "$here/observed.py" "$chat/many" "$work/many.history" 20000 "$watched"
"$here/../bin/pt_audit" "$work/many.history"
"$here/../.ci/bounded" 120 "$chat/pages" "$work/pages.history" 20000 2
"$here/../bin/pt_audit" "$work/pages.history"
echo "rust: the runs that are watched passed"

# Python: tests beside the sources, and the package as pip installs it, without a network
(
    cd "$here/python"
    python3 -m unittest discover -q -s tests
    # (and without the module in C, which does not change what the runtime does)
    mkdir "$work/alone"
    cp "$work/built/lib/libpundewo.so" "$work/alone/"
    for tests in 'test_runtime*.py' 'test_trial_promises.py'; do
        PUNDEWO_SO=$work/alone/libpundewo.so python3 -m unittest discover -q -s tests -p "$tests"
    done
    PYTHONPATH=. python3 examples/supervisor.py | diff "$here/c/supervisor.out" -
    PYTHONPATH=. python3 examples/crew.py | diff "$here/c/crew.out" -
    PYTHONPATH=. python3 examples/crew_supervisors.py | diff "$here/c/crew_supervisors.out" -
    if command -v mypy >/dev/null; then
        for level in 3.9 "$(python3 -c 'import sys; print("%d.%d" % sys.version_info[:2])')"; do
            mypy --strict --cache-dir=/dev/null --python-version "$level" pundewo build_wheel.py examples tests ../bad_clients.py \
                ../observed.py
            MYPYPATH=..:../../.ci:../../tools mypy --strict --cache-dir=/dev/null --python-version "$level" ../abi.py \
                ../abi_tests.py ../proved.py ../proved_tests.py ../dist.py ../packages.py ../planted.py
        done
    fi
    if python3 -m pyflakes --version >/dev/null 2>&1; then
        python3 -m pyflakes .
    fi
)
echo "python: tests passed"

# The chat server in asyncio under its load, as the one in Rust
"$here/../.ci/build" pt_audit >"$work/printed"
(cd "$here/python" && PYTHONPATH=. "$here/../.ci/bounded" 240 python3 examples/chat_load.py --connections 40 --crashing 10 --rate 10 \
    --seconds 3 --archive "$work/chat_python.history")
"$here/../bin/pt_audit" "$work/chat_python.history"
(cd "$here/python" && PYTHONPATH=. timeout 1800 "$here/bad_clients.py" python3 examples/chat.py)
echo "python: the chat server passed"
(cd "$here/python" && PYTHONPATH=. timeout 1800 "$here/observed.py" python3 -u examples/watched.py 20)
(cd "$here/python" && PYTHONPATH=. timeout 1800 "$here/observed.py" --unsupervised python3 -u examples/chat_load.py --watched \
    --connections 40 --crashing 10 --rate 10 --seconds 20)
(cd "$here/python" && PYTHONPATH=. timeout 1800 "$here/observed.py" python3 -u examples/many.py 20000 "$watched")
echo "python: the runs that are watched passed"
python3 -m venv "$work/venv"
"$work/venv/bin/pip" install -q --no-index --disable-pip-version-check "$here/python"
(cd "$work" && env -u PUNDEWO_SO "$work/venv/bin/python" "$here/python/examples/ping_pong.py" >"$work/printed")
rm -rf "$here/python/build" "$here/python/pundewo.egg-info"
echo "python: the package is installed, and runs"

# The library as `make install` leaves it, found by pkg-config
if command -v make >/dev/null && command -v pkg-config >/dev/null; then
    make -s -C "$here" install LIBRARY="$work/built" PREFIX="$work/installed" >"$work/printed"
    export PKG_CONFIG_PATH=$work/installed/lib/pkgconfig
    # shellcheck disable=SC2046 # (words)
    $c -o "$work/ping_pong" "$here/c/ping_pong.c" $(pkg-config --cflags --libs pundewo)
    LD_LIBRARY_PATH=$work/installed/lib "$work/ping_pong" >"$work/printed"
    (cd "$here/rust" && env -u PUNDEWO_LIB cargo build -q --offline --examples)
    echo "install: header, libraries and pkg-config file serve C and Rust"
else
    echo "bindings: no make or pkg-config: the installed library is not tried (apt-get install make pkg-config)"
fi

# The packages as their users get them, with the programs that `rt ci` left, or with those of bin/
if [ "$mode" = --gate ]; then
    programs=$here/../out/proved/bin
    if [ -n "$given" ] || [ ! -e "$programs/pt_run" ]; then
        "$here/../.ci/build" pt_run pt_audit pt_explore pt_shell >"$work/printed"
        programs=$here/../bin
    fi
    "$here/packages.py" "$work/built" "$programs"
fi
echo "bindings: all passed"
