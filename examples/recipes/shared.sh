# Read by each recipe: a folder of its own that looks like the top of the repository, and what they share.
set -eu
export LC_ALL=C
top=$(cd "$(dirname "$0")/../.." && pwd)
scratch=$(mktemp -d)
started=

finish() {
    for id in $started; do kill "$id" 2>/dev/null || true; done
    rm -rf "$scratch"
}
trap finish EXIT
trap 'exit 130' INT
trap 'exit 143' TERM

# Ends with 77 where a tool isn't installed.
wants() {
    for tool; do
        command -v "$tool" >/dev/null || { echo "skipped: $tool is not installed" >&2; exit 77; }
    done
}

free_port() {
    python3 -c 'import socket; s = socket.create_server(("127.0.0.1", 0)); print(s.getsockname()[1])'
}

# Waits until a file holds a text, ten seconds at most.
await() {
    for _ in $(seq 100); do
        grep -q "$2" "$1" 2>/dev/null && return
        sleep 0.1
    done
    echo "$1 never said $2:" >&2
    cat "$1" >&2
    exit 1
}

ln -s "$top/bench" "$top/examples" "$top/idl" "$top/giopctl" "$scratch"
cd "$scratch"
