#!/usr/bin/env bash
# capture.sh CAPTURE >TRACE: makes a trace for replay from recorded RoCE packets, v1 or v2, with tshark. Each message that
# was sent in a single packet gives a line: SEND only (4), with immediate data (5), with invalidate (23). A message cut into
# SEND first, middle and last is left out; one that was sent again comes again, and so do the SENDs of other protocols.
# Packets must have been recorded whole.
set -euo pipefail
if [ $# != 1 ]; then
    echo "usage: capture.sh CAPTURE >TRACE" >&2
    exit 2
fi
"$(dirname -- "${BASH_SOURCE[0]}")/scripts/needs" tshark
# The payload is to be plain data, whatever tshark takes it for. The bytes that pad it to a multiple of 4 are still in it.
tshark -r "$1" -o infiniband.try_heuristic_first:FALSE -d infiniband,data \
    -Y 'infiniband.bth.opcode in {4, 5, 23}' -T fields -e infiniband.bth.padcnt -e data.data |
    awk '{ print substr($2, 1, length($2) - 2 * $1) }'
