#!/bin/sh
# Builds and prints one table: instructions for each call (callgrind, if there), time, ratios;
# where bytes are moved, the bare copies of the same bytes to the same places too. Then, for the plain
# ledger, what it costs to look for an xid twice pair by pair even where the xids rise.
set -eu
cd "$(dirname "$0")"
: "${EOS_LIB_DIR:?set EOS_LIB_DIR to the folder that holds libeoswynnor.a}"
cargo build --release --offline -j1 --quiet --bin bench
bench=${CARGO_TARGET_DIR:-target}/release/bench

collected() {
    valgrind --tool=callgrind --callgrind-out-file=/dev/null "$bench" --one "$1" "$2" "$3" 2>&1 |
        awk '/Collected/ { print $NF }'
}

# Two counts, so that the start of the program falls out. A fill moves 1 MiB: fewer of them.
instructions() {
    if ! command -v valgrind >/dev/null; then echo -; return; fi
    case $1 in *-fill) once=10 ;; *) once=1000 ;; esac
    few=$(collected "$1" "$2" $once)
    many=$(collected "$1" "$2" $((11 * once)))
    echo $(((many - few) / (10 * once)))
}

# Of two calls with an input, and the first over the second.
both() {
    a=$(instructions "$1" "$3")
    b=$(instructions "$2" "$3")
    r=$(echo "$a $b" | awk '{ if ($2 + 0 > 0) printf "%.2f", $1 / $2; else print "-" }')
}

row='%-11s %-8s %9s %9s %7s %9s %9s %7s %9s %7s\n'
printf "$row" call input 'lib ins' 'plain ins' ratio 'lib ns' 'plain ns' ratio 'copy ns' ratio
"$bench" | tail -n +2 | while read -r call input lib plain ratio copy slower; do
    both "lib-$call" "plain-$call" "$input"
    printf "$row" "$call" "$input" "$a" "$b" "$r" "$lib" "$plain" "$ratio" "$copy" "$slower"
done

row='%-11s %-8s %9s %9s %7s %9s %9s %7s\n'
echo
printf "$row" call input 'quadr ins' 'plain ins' ratio 'quadr ns' 'plain ns' ratio
"$bench" --quadratic | tail -n +2 | while read -r call input quadratic plain ratio; do
    both "plain-$call-quadratic" "plain-$call" "$input"
    printf "$row" "$call" "$input" "$a" "$b" "$r" "$quadratic" "$plain" "$ratio"
done
