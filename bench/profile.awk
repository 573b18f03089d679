# profile.awk NAMES COUNTS: prints, as a Markdown table, where the instructions of one row of one set go, for each operation.
# -v row=.. -v set=..: their names. Functions below one instruction are left out; the C library's variants count as one.
BEGIN { FS = "\t" }
FILENAME == ARGV[1] { if ($2 == set && $4 == row) { region = $1; operations = $3 }; next }
FNR == 1 { FS = " "; $0 = $0 }
$1 == "function" && $2 == region {
    name = $3
    if (name ~ /^__mem(cpy|move)/) name = "memcpy"
    if (name ~ /^__memset/) name = "memset"
    if (name ~ /^_Z/) name = "the caller"
    if (name == "?") name = "jumps to the C library"
    if (!(name in sum)) order[++n] = name
    sum[name] += $4
}
END {
    print "| function                       | instructions |\n|---|---:|"
    for (i = 1; i <= n; i++)
        if (sum[order[i]] >= operations) printf "| %-30s | %12.1f |\n", order[i], sum[order[i]] / operations
}
