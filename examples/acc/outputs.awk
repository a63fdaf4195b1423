# The first 16 numbers that the core put: out, whose least bit stands first, where put, the last column, is 1.
substr($0, 13, 1) == "1" && shown < 16 {
    shown++
    number = 0
    for (i = 8; i >= 1; i--)
        number = 2 * number + substr($0, i, 1)
    list = list " " number
}
END {
    print substr(list, 2)
}
