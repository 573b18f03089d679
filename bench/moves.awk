# moves.awk: prints what `moves` wrote as two Markdown tables: by the rules and with even spacing; and the two profiles, moves a request
# with the sweeps in brackets.
BEGIN {
    FS = "\t"
    print "| pattern                    | requests | keys left | moves a request | with even spacing | sweeps | with even spacing |"
    print "|---|---:|---:|---:|---:|---:|---:|"
}
$1 == "pattern" { printf "| %-26s | %8d | %9d | %15.2f | %17.2f | %6d | %17d |\n", $2, $3, $4, $5 / $3, $7 / $3, $6, $8 }
$1 == "list" { heads = heads sprintf(" profile %d: %d keys in %d slots |", $3, $5, $4); rules = rules "---:|" }
$1 == "profiles" {
    if (heads != "") print "\n| moves a request            |" heads "\n|---|" rules
    heads = ""
    printf "| %-26s |", $2
    for (i = 3; i < NF; i += 3) printf " %30s |", sprintf("%.2f (%d)", $(i + 1) / $i, $(i + 2))
    print ""
}
