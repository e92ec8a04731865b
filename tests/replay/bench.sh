#!/usr/bin/env bash
# bench.sh [LINES [ROUNDS]]: measures replay against plain.c on traces of 1,000,000 lines (a quarter of them where noted) and
# prints a table of the best of 5 rounds, which take turns. First both must give the same report of each trace. The traces
# lie in TMPDIR; where there is no room for the largest one, it is shortened.
set -euo pipefail
here=$(cd "$(dirname "$0")" && pwd)
replay=${EOS_REPLAY:-$here/../../target/bin/replay}
lines=${1:-1000000}
rounds=${2:-5}
if [[ ! -f $replay || ! -x $replay ]]; then
    echo "bench: no program at $replay: build it, or name one with EOS_REPLAY" >&2
    exit 1
fi
scratch=$(mktemp -d)
trap 'rm -rf "$scratch"' EXIT
trace=$scratch/trace
# The program is compiled for plain x86-64 too.
for_machine=()
[[ $(uname -m) != x86_64 ]] || for_machine=(-march=x86-64)
for source in plain measure; do
    "${CC:-cc}" -std=c99 -Wall -Wextra -O3 "${for_machine[@]}" "$here/$source.c" -o "$scratch/$source"
done

c2=0000002a000000010000002000000000000000000000000000000000
repeated() { awk -v times="$1" -v line="$2" 'BEGIN { for (i = 0; i < times; i++) print line }'; }

# 16 read segments at falling positions, and 100 bytes of payload.
segments() {
    awk -v times="$1" 'BEGIN {
        line = "0000002a000000010000002000000000"
        for (i = 16; i > 0; i--)
            line = line sprintf("00000001%08x00000007000000050000000000000009", 4 * i)
        line = line "000000000000000000000000"
        for (i = 0; i < 100; i++)
            line = line sprintf("%02x", i)
        for (i = 0; i < times; i++)
            print line
    }'
}

# 400 random bytes behind the header of C2.
random() {
    head -c $((400 * $1)) /dev/urandom | od -An -v -tx1 | tr -d ' \n' | fold -w 800 | sed "s/^/$c2/"
    # fold ends without a newline.
    echo
}

# Frames of likely words, cut anywhere; some lines are odd, damaged or too long. The same at each run.
mixed() {
    awk -v times="$1" 'BEGIN {
        srand(1)
        n = split("00000000 00000000 00000000 00000001 00000001 00000001 00000002 00000003 00000004 00000005 00000008 " \
            "00000010 00000011 0000000A 00000100 FfFfFfFf", words, " ")
        for (i = 0; i < times; i++) {
            line = rand() < 0.95 ? "0000002a0000000100000020" : words[int(n * rand()) + 1] words[int(n * rand()) + 1]
            line = line (rand() < 0.6 ? "00000000" : words[int(n * rand()) + 1])
            for (k = int(30 * rand() * rand()); k > 0; k--)
                line = line (rand() < 0.2 ? "00000001" "00000004" "0000000700000005" "0000000000000009" : \
                    rand() < 0.5 ? "00000000" : words[int(n * rand()) + 1])
            r = rand()
            if (r < 0.1)
                line = substr(line, 1, 2 * int(length(line) / 2 * rand()))
            else if (r < 0.12)
                line = substr(line, 1, int(length(line) * rand()))
            else if (r < 0.13)
                line = substr(line, 1, int(length(line) * rand())) substr(" /:@G`g\r", int(8 * rand()) + 1, 1) line
            else if (r < 0.131) {
                while (length(line) < 8000)
                    line = line line
                line = substr(line, 1, 8189 + int(7 * rand()))
            }
            print line
        }
    }'
}

# best PROGRAM: of the rounds, the least time and the most memory.
best() { awk 'NR == 1 || $1 < time { time = $1 } $2 > memory { memory = $2 } END { print time, memory }' "$scratch/$1.times"; }

# row NAME COMMAND...: makes the trace with the command, compares, measures, and prints a row.
row() {
    local round
    "${@:2}" >"$trace"
    if ! cmp <("$replay" <"$trace") <("$scratch/plain" <"$trace") >&2; then
        echo "bench: $1: the reports differ" >&2
        exit 1
    fi
    : >"$scratch/replay.times"
    : >"$scratch/plain.times"
    for ((round = 0; round < rounds; round++)); do
        "$scratch/measure" "$replay" "$trace" >>"$scratch/replay.times"
        "$scratch/measure" "$scratch/plain" "$trace" >>"$scratch/plain.times"
    done
    echo "$(wc -l <"$trace") $(wc -c <"$trace") $(best replay) $(best plain)" | awk -v name="$1" '{
        printf "| %s | %d | %.1f | %.3f s, %.2f M lines/s, %.0f MB/s | %.3f s, %.2f M lines/s, %.0f MB/s | %.2f | %d KiB | %d KiB |\n",
            name, $1, $2 / 1e6, $3, $1 / $3 / 1e6, $2 / $3 / 1e6, $5, $1 / $5 / 1e6, $2 / $5 / 1e6, $3 / $5, $4, $6
    }'
}

# The largest trace, 1,025 bytes a line, takes at most half of the room.
room=$(df -P -k "$scratch" | awk 'NR == 2 { print int($4 / 2) }')
large=$((lines < room * 1024 / 1025 ? lines : room * 1024 / 1025))

echo '| trace | lines | MB | replay | plain C | time, ratio | memory, replay | memory, plain C |'
echo '|---|--:|--:|--:|--:|--:|--:|--:|'
row "C2" repeated "$lines" "$c2"
row "16 read segments, 100 bytes" segments "$large"
row "C2 and 400 random bytes" random $((lines / 4))
row "mixed and damaged" mixed "$lines"
