# Says whether two files of rows agree: awk -f compare.awk ORIGINAL CORE. An x of the original stands against any
# bit, since a netlist has 0 and 1 alone. Status 0 where they agree, 1 where they differ or one is shorter.
FNR == NR {
    original[FNR] = $0
    rows = FNR
    next
}
first == 0 && !alike(original[FNR], $0) {
    first = FNR
}
function alike(x, y,   i, bit) {
    for (i = 1; i <= length(x); i++) {
        bit = substr(x, i, 1)
        if (bit == "x")
            unknown++
        else if (bit != substr(y, i, 1))
            return 0
    }
    return length(x) == length(y)
}
END {
    if (rows == 0 || FNR != rows)
        print "differ: " rows " rows and " FNR
    else if (first)
        print "differ first at clock " first - 1
    else
        print "agree over " rows " clocks" (unknown ? ", " unknown " bits of the original being x" : "")
    exit first || rows == 0 || FNR != rows
}
