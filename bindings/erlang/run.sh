#!/usr/bin/env bash
# Tries the node of an Erlang cluster: the crate's tests and lints, the page's own session of an Erlang shell, and the histories
# of the load, which pt_audit judges.
#
#   bindings/erlang/run.sh                 everything
#   bindings/erlang/run.sh --tools         only says which tools are missing
#   bindings/erlang/run.sh --namespaces    the load alone, between two network namespaces: this program's nodes are in one,
#                                          Erlang's in the other, and cuts take the network between them away. It needs root
#
# PUNDEWO_LIB names the folder of libpundewo.a (bindings/build.sh), PT_AUDIT a pt_audit that was built before, and
# PUNDEWO_ERLANG_LOAD how many times the load is run. If Erlang is not there, the script says so, and tries nothing.
set -euo pipefail

here=$(cd "$(dirname "$0")" && pwd)
missing=()
for tool in erl erlc epmd; do
    command -v "$tool" >/dev/null || missing+=("$tool (apt-get install erlang-base)")
done
has_library=false
for folder in "${EI_LIB:-/usr/lib}" /usr/lib/erlang/usr/lib; do
    [ ! -f "$folder/libei.a" ] || has_library=true
done
$has_library || missing+=("libei.a (apt-get install erlang-dev)")
if command -v erl >/dev/null && ! erl -noshell -eval 'halt(case code:lib_dir(eunit) of {error, _} -> 1; _ -> 0 end).'; then
    missing+=("eunit (apt-get install erlang-eunit)")
fi
if [ "${#missing[@]}" -gt 0 ]; then
    printf 'erlang: missing: %s: the node of an Erlang cluster is not tried\n' "${missing[@]}"
    exit 0
fi
[ "${1:-}" != --tools ] || exit 0
[ -n "${PUNDEWO_LIB:-}" ] || { echo "erlang: set PUNDEWO_LIB to the folder of libpundewo.a (bindings/build.sh)" >&2; exit 1; }
audit=${PT_AUDIT:-$here/../../bin/pt_audit}
[ -x "$audit" ] || { echo "erlang: no $audit: run .ci/build pt_audit" >&2; exit 1; }

work=$(mktemp -d)
daemons=()
ends() {
    [ "${#daemons[@]}" -eq 0 ] || kill "${daemons[@]}" 2>/dev/null || true
    rm -rf "$work"
}
trap ends EXIT
export CARGO_TARGET_DIR=${CARGO_TARGET_DIR:-$work/target}
cd "$here"

# Compares the counts of both sides with the histories, and judges these.
compares() { # FOLDER
    "$here/counts.py" "$1"
    for history in "$1"/*.history; do
        "$audit" "$history"
    done
}

if [ "${1:-}" = --namespaces ]; then
    ours=pundewo_$$a theirs=pundewo_$$b
    trap 'ip netns del "$ours" 2>/dev/null || true; ip netns del "$theirs" 2>/dev/null || true; ends' EXIT
    ip netns add "$ours"
    ip netns add "$theirs"
    ip link add wire netns "$ours" type veth peer name wire netns "$theirs"
    host=1
    for place in "$ours" "$theirs"; do
        ip -n "$place" addr add "10.91.0.$host/24" dev wire
        ip -n "$place" link set lo up
        ip -n "$place" link set wire up
        host=2
    done
    mkdir "$work/histories"
    PUNDEWO_ERLANG_HISTORIES=$work/histories PUNDEWO_ERLANG_PLACES="10.91.0.1 10.91.0.2 ip netns exec $theirs" \
        PUNDEWO_ERLANG_WIRE="ip -n $ours link set wire" \
        ip netns exec "$ours" timeout 3600 cargo test -q --offline --test load -- --nocapture
    compares "$work/histories"
    echo "erlang: the load between two network namespaces passed"
    exit 0
fi

# The crate: its tests, its pages, and lints
if cargo fmt --version >/dev/null 2>&1; then
    cargo fmt --check
fi
mkdir "$work/histories"
PUNDEWO_ERLANG_HISTORIES=$work/histories timeout 3600 cargo test -q --offline -- --nocapture >"$work/printed" 2>&1 \
    || { grep -v '^ *[0-9]*: \|^ *at ' "$work/printed" | tail -n 60; exit 1; }
grep -E '^[a-zA-Z0-9,. ]+: [0-9]+ in |with eight cuts|linked pairs: |were on their way|waited at most|cut off$' "$work/printed" || true
compares "$work/histories"
if command -v mypy >/dev/null; then
    mypy --strict --python-version 3.9 --cache-dir "$work/mypy" "$here/counts.py" >"$work/printed" || { cat "$work/printed"; exit 1; }
fi
if cargo clippy --version >/dev/null 2>&1; then
    cargo clippy -q --offline --all-targets -- -D warnings
fi
echo "erlang: tests and pages passed"

# The session that the page quotes: an epmd and a home of its own, and the commands of the session into a shell of Erlang
cargo build -q --offline --example counter
export HOME=$work/home ERL_EPMD_ADDRESS=127.0.0.1
mkdir "$HOME"
(umask 277 && head -c 16 /dev/urandom | od -An -tx1 | tr -d ' \n' >"$HOME/.erlang.cookie")
ERL_EPMD_PORT=$(python3 -c 'import socket; s = socket.socket(); s.bind(("127.0.0.1", 0)); print(s.getsockname()[1])')
export ERL_EPMD_PORT
epmd -port "$ERL_EPMD_PORT" -address 127.0.0.1 2>"$work/epmd" &
daemons+=($!)
mkfifo "$work/input"
"$CARGO_TARGET_DIR/debug/examples/counter" counter@127.0.0.1 "$HOME/.erlang.cookie" "$work/counter.history" \
    <"$work/input" >"$work/counter" 2>"$work/counter_said" &
counter=$!
exec 9>"$work/input"
tries=0
until grep -q 'serves the counter' "$work/counter"; do
    tries=$((tries + 1))
    [ "$tries" -lt 1200 ] || { cat "$work/counter_said"; echo "erlang: the counter does not begin"; exit 1; }
    sleep 0.1
done
session=$here/examples/counter.session
# (the shell ends with its input, so that stays open until it has printed all that is expected)
{
    sed -n 's/^([a-z@0-9.]*)[0-9]*> //p' "$session"
    sleep 1
    echo 'halt().'
} | timeout 600 erl -name shell@127.0.0.1 >"$work/shell"
# (a shell that has no terminal does not print what it reads)
sed -n '/^(shell@/p' "$work/shell" | sed 's/^([a-z@0-9.]*)[0-9]*> //' | head -n "$(grep -c '> ' "$session")" >"$work/answers"
grep -v '^(shell@' "$session" | diff - "$work/answers" || { cat "$work/shell" "$work/counter_said"; exit 1; }
exec 9>&-
wait "$counter"
"$audit" "$work/counter.history"
if grep -q -F -f "$HOME/.erlang.cookie" "$work/counter" "$work/counter_said" "$work/shell"; then
    echo "erlang: the cookie was printed"
    exit 1
fi
echo "erlang: the session of the page passed"
