#!/bin/sh
# Verilog -> netlist -> C threads -> Verilog, and simulations that compare each thread with the original core.
# usage: run.sh [PROGRAM]. PROGRAM is cslow; without it the variable CSLOW names it, or it is the repository's.
# Status 0: all is as wanted; 2: a program that is needed isn't there; else something differs or failed.
set -eu

here=$(cd "$(dirname "$0")" && pwd)
cslow=${1:-${CSLOW:-$here/../../crates/cslow/out/cslow}}
clocks=1000

# Stops where a program isn't there. usage: need PROGRAM HOW-TO-GET-IT
need() {
    command -v "$1" > /dev/null || {
        echo "run.sh: $1 is not there: $2" >&2
        exit 2
    }
}

# The netlist NAME.json as Verilog, and that with the bench as the simulation NAME.vvp. usage: simulation NAME
simulation() {
    yosys -q -p "read_json $1.json; opt_clean; write_verilog -noattr $1.v"
    iverilog -g2005 -o "$1.vvp" bench.v "$1.v"
}

# What the original core answers, from its own program or the given one. usage: original ROWS [PROGRAM]
original() {
    vvp -n out/original.vvp "+rows=$1" "+count=$clocks" ${2:+"+program=$2"}
}

# Runs cslow; what it puts stands in FILE, and is shown where it fails. usage: put_into FILE WORDS..
put_into() {
    file=$1
    shift
    "$cslow" "$@" > "$file" || {
        cat "$file" >&2
        exit 1
    }
}

# Feeds ROWS.0, ROWS.1, .. in turn to the simulation NAME.vvp of C threads; NAME.0, NAME.1, .. are the answers.
# usage: feed C NAME ROWS
feed() {
    streams=
    for k in $(seq 0 $(($1 - 1))); do
        streams="$streams $3.$k"
    done
    "$cslow" mix "$2.rows" $streams
    vvp -n "$2.vvp" "+rows=$2.rows" "+count=$(($1 * clocks))" > "$2.answer"
    for k in $(seq 0 $(($1 - 1))); do
        put_into "$2.$k" part "$k" "$1" "$2.answer"
    done
}

# Says of each stream whether NAME.k agrees with ORIGINAL.k. Status 1 where one differs.
# usage: compare C NAME ORIGINAL
compare() {
    status=0
    for k in $(seq 0 $(($1 - 1))); do
        printf '  stream %s: ' "$k"
        awk -f compare.awk "$3.$k" "$2.$k" || status=1
    done
    return $status
}

need yosys "the package yosys"
need iverilog "the package iverilog"
need vvp "the package iverilog"
need awk "the package mawk"
need "$cslow" "build it by (cd crates/cslow && rt run -- version) at the top, or name it by CSLOW=path"
cslow=$(command -v "$cslow")
case $cslow in
    /*) ;;
    *) cslow=$PWD/$cslow ;;
esac
cd "$here"
mkdir -p out

echo "the netlist against the original core"
yosys -q -p "read_verilog acc.v; hierarchy -check -top acc; script ../netlist.ys; write_json out/acc.json"
iverilog -g2005 -DPROGRAM -o out/original.vvp bench.v acc.v
for k in 0 1 2 3; do
    awk -v seed=$((k + 11)) -v count=$clocks -f rows.awk > out/rows.$k
    original out/rows.$k > out/alone.$k
    put_into out/netlist.$k sim out/acc.json out/rows.$k
done
compare 4 out/netlist out/alone

for c in 2 4; do
    echo "$c threads against the original core"
    "$cslow" slow out/acc.json out/acc$c.json out/cert$c.json delays.json -c $c
    simulation out/acc$c
    feed $c out/acc$c out/rows
    compare $c out/acc$c out/alone
done

echo "4 threads, the first start bit of 1 in out/acc4.json turned to 0"
sed 's/"init":"1"/"init":"0"/' out/acc4.json > out/turned.json
simulation out/turned
feed 4 out/turned out/rows
if compare 4 out/turned out/alone; then
    echo "run.sh: the turned start isn't seen" >&2
    exit 1
fi

echo "4 threads, each with its own program"
set -- programs/count.mem programs/fibonacci.mem programs/squares.mem programs/powers.mem
awk -f images.awk "$@" > out/images.json
"$cslow" slow out/acc.json out/own.json out/cert.json delays.json -c 4 --images out/images.json
simulation out/own
k=0
for program in "$@"; do
    awk -v seed=$((k + 11)) -v count=$clocks -v plain=1 -f rows.awk > out/plain.$k
    original out/plain.$k "$program" > out/programmed.$k
    k=$((k + 1))
done
feed 4 out/own out/plain
compare 4 out/own out/programmed
k=0
for program in "$@"; do
    echo "  thread $k, $program, puts: $(awk -f outputs.awk out/own.$k)"
    k=$((k + 1))
done
echo "all as wanted"
