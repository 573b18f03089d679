# speed.awk COUNTS NAMES: joins what was counted or timed (region REGION TIMES SUM) with the names that `speed count` wrote, and prints
# a Markdown table for each operation: a row to a line, a set to a column. -v what=..: the head of the first column; -v less=..: the head of
# one more, with what the first set has beyond the second.
FILENAME == ARGV[1] { if ($1 == "region") sum[$2] = $4; next }
FNR == 1 { FS = "\t"; $0 = $0 }
{
    if (!($4 in seen)) { seen[$4] = 1; rows[++n] = $4 }
    if (!($2 in seen)) { seen[$2] = 1; sets[++m] = $2 }
    each[$4, $2] = sprintf("%.1f", sum[$1] / $3)
    beyond[$4] += ($2 == sets[1] ? 1 : -1) * sum[$1] / $3
}
END {
    printf "| %-26s |", what
    for (j = 1; j <= m; j++) printf " %21s |", sets[j]
    if (less != "") printf " %21s |", less
    printf "\n|---|"
    for (j = 1; j <= m + (less != ""); j++) printf "---:|"
    for (i = 1; i <= n; i++) {
        printf "\n| %-26s |", rows[i]
        for (j = 1; j <= m; j++) printf " %21s |", (rows[i], sets[j]) in each ? each[rows[i], sets[j]] : ""
        if (less != "") printf " %21.1f |", beyond[rows[i]]
    }
    print ""
}
