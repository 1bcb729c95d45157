# From the control file of libFuzzer's merge: the names of the files that add most edges to those of the first folder, one after another.
# Its lines: the count of files, the count of those in the first folder, the names, and `FT place edge..` for each file, from place 0 on.
NR == 1 { files = $1; next }
NR == 2 { first = $1; next }
NR <= files + 2 { name[NR - 3] = $0; next }
$1 == "FT" && $2 < first { for (i = 3; i <= NF; i++) reached[$i] = 1 }
$1 == "FT" && $2 >= first { edges[$2] = $0 }
END {
    for (round = 0; round < most; round++) {
        best = 0
        for (place in edges) {
            fields = split(edges[place], word, " ")
            new = 0
            for (i = 3; i <= fields; i++) if (!(word[i] in reached)) new++
            if (new == 0) delete edges[place]
            else if (new > best || (new == best && place + 0 < chosen + 0)) { best = new; chosen = place }
        }
        if (best == 0) exit
        print name[chosen]
        fields = split(edges[chosen], word, " ")
        for (i = 3; i <= fields; i++) reached[word[i]] = 1
        delete edges[chosen]
    }
}
