#!/bin/sh
# Shows, for each FILE.v here, the line by which cslow refuses it and that it passes when it is mended.
# usage: run.sh [NAME..], for the files of these names alone. The variable CSLOW names the program, as in
# ../acc/run.sh. Status 0: all are refused and pass; 1: one isn't or doesn't; 2: a program isn't there.
# A file is refused as it stands, by ../netlist.ys or that script changed with sed as a line '// refused by:' says.
# It passes as it stands where PASSES is defined, by the script or that changed as a line '// passes by:' says.
set -eu

here=$(cd "$(dirname "$0")" && pwd)
cslow=${CSLOW:-$here/../../crates/cslow/out/cslow}
for program in yosys "$cslow"; do
    command -v "$program" > /dev/null || {
        echo "run.sh: $program is not there; CSLOW=path names the program cslow" >&2
        exit 2
    }
done
cslow=$(command -v "$cslow")
case $cslow in
    /*) ;;
    *) cslow=$PWD/$cslow ;;
esac
cd "$here"
mkdir -p out

# What cslow puts of FILE for two threads, or 'passes', or what Yosys puts where it stops.
# usage: line FILE SED YOSYS-WORDS
line() {
    { echo "hierarchy -check -top top" && cat ../netlist.ys; } | sed "$2" > out/script.ys
    rm -f out/top.json
    yosys -q -p "read_verilog -sv $3 $1; script out/script.ys; write_json out/top.json" > out/log 2>&1 || {
        grep ERROR out/log
        return
    }
    if "$cslow" slow out/top.json out/slow.json out/cert.json ../acc/delays.json -c 2 > out/line; then
        echo passes
    else
        cat out/line
    fi
}

[ $# -gt 0 ] || set -- $(ls ./*.v | sed 's/^..//; s/\.v$//')
status=0
for name in "$@"; do
    refused=$(line "$name.v" "$(sed -n 's|^// refused by: ||p' "$name.v")" "")
    mended=$(line "$name.v" "$(sed -n 's|^// passes by: ||p' "$name.v")" -DPASSES)
    echo "$name: $refused; mended: $mended"
    [ "$refused" != passes ] && [ "$mended" = passes ] || status=1
done
exit $status
