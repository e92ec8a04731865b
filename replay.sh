#!/usr/bin/env bash
# replay.sh [TRACE]: proves and builds the program that replays a trace (README says how long it takes at first), and runs it on
# TRACE, or on the sample trace. The report alone is written to standard output; the status is not 0 if it is not whole.
set -euo pipefail
unset CDPATH
top=$(cd -- "$(dirname -- "${BASH_SOURCE[0]}")" && pwd)
trace=${1:-$top/crates/replay/stdin}
if [ ! -r "$trace" ] || [ -d "$trace" ]; then
    echo "replay.sh: no trace that can be read at $trace" >&2
    exit 1
fi
"$top/scripts/needs" rt
echo "proving the program replay and the crates that it uses: a line for each that has changed" >&2
"$top/scripts/program"
# The program's status is 0 in any case: a report is whole if its last line says so.
"$top/target/bin/replay" <"$trace" | awk '{ print; last = $0 } END { exit last !~ /^(accepted [0-9]+ refused [0-9]+ |too long$)/ }'
