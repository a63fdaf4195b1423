# Rows for one stream of acc: at (4 bits), en, in (8), load, rst and word (12), each row with bits of its own.
# -v seed=K, from 1; -v count=N rows; with -v plain=1 the core runs on, and no word of its program is written.

# A number below n, by the generator of Park and Miller: every awk draws the same.
function draw(n) {
    state = state * 16807 % 2147483647
    return int(state / 2147483647 * n)
}
function bits(n,   text) {
    for (text = ""; n > 0; n--)
        text = text draw(2)
    return text
}
# 1 in one of n rows.
function one_in(n) {
    return draw(n) == 0 ? 1 : 0
}
BEGIN {
    state = seed * 48271
    for (row = 0; row < count; row++)
        if (plain)
            print bits(4) 1 bits(8) 0 0 bits(12)
        else
            print bits(4) (1 - one_in(8)) bits(8) one_in(4) one_in(64) bits(12)
}
