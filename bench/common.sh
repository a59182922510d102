# What the benches share; each reads it with its own words. It sets
# - program: the first word, or the built program, which is proved and built first where it isn't;
# - folder: an empty folder that goes when the bench ends;
# - timed: a command that gives the time of one run of its words, in microseconds, without what they print;
# - least: a command that gives the least time of five runs of its words;
# - held: a command that gives the most memory that a run of its words held, in bytes, without what it prints.
set -euo pipefail
top="$(cd "$(dirname "${BASH_SOURCE[0]}")/.." && pwd)"
program="${1-}"
if [ -z "$program" ]; then
    "$top/flux" prove
    program="$top/crates/flux_program/out/flux_program"
fi
folder="$(mktemp -d)"
trap 'rm -rf "$folder"' EXIT

timed() {
    local start end
    start="${EPOCHREALTIME/./}"
    "$@" >/dev/null
    end="${EPOCHREALTIME/./}"
    echo $((end - start))
}

least() {
    for _ in 1 2 3 4 5; do timed "$@"; done | sort -n | head -n 1
}

held() {
    [ -x "$folder/held" ] || gcc -O2 -o "$folder/held" "$top/bench/held.c"
    "$folder/held" "$@"
}
