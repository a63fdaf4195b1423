# Programs as images of the memory `prog`, one for each thread, in the order of the files.
# A program is a file for $readmemb of 16 words; in an image the last word stands first.
function digits(word) {
    gsub(/_/, "", word)
    while (length(word) < 12)
        word = "0" word
    return word
}
FNR == 1 {
    programs++
}
{
    sub(/\/\/.*/, "")
    for (i = 1; i <= NF; i++)
        image[programs] = digits($i) image[programs]
}
END {
    for (k = 1; k <= programs; k++)
        list = list (k == 1 ? "" : ",") "\"" image[k] "\""
    print "{\"images\":{\"prog\":[" list "]},\"version\":1}"
}
