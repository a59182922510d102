# What the benches by calls share: `program` is the first word, or the built program of crates/flow_trials, which is proved
# and built first where it isn't; and what all benches share.
trials="$(cd "$(dirname "${BASH_SOURCE[0]}")/../crates/flow_trials" && pwd)"
if [ -z "${1-}" ]; then
    [ -x "$trials/out/flow_trials" ] || (cd "$trials" && rt run -- core 1) >&2
    set -- "$trials/out/flow_trials"
fi
source "$(dirname "${BASH_SOURCE[0]}")/common.sh"
