# compare.awk: two consoles line by line, awk -v lines=FILE -v parts=NAMES -f compare.awk PLAIN
# MONITORED. These parts of FILE have the lines that may differ (tests/boot/lines-1.1.txt says how).
# The monitor's own lines begin with [monitor], and aren't compared. The last line printed is the
# verdict, and the status is 1 if anything is wrong.

BEGIN {
    while ((getline line <lines) > 0) {
        if (line ~ /^\[.*\]$/) on = index(" " parts " ", " " substr(line, 2, length(line) - 2) " ")
        else if (on && line != "" && line !~ /^#/) {
            only[++expressions] = sub(/^only /, "", line)
            expression[expressions] = "^(" line ")$"
        }
    }
}

{ sub(/\r$/, "") }

FILENAME == ARGV[1] { plain[++plains] = $0; next }

/^\[monitor\]/ { next }

{ monitored[++monitoreds] = $0 }

# The expression that lets these lines differ; or that lets the first stand alone.
function let(one, other, alone,    e) {
    for (e = 1; e <= expressions; e++) if (only[e] == alone && one ~ expression[e] && (alone || other ~ expression[e])) return e
    return 0
}

END {
    i = j = 1
    while (i <= plains || j <= monitoreds) {
        if (i <= plains && j <= monitoreds && plain[i] == monitored[j]) { same++; i++; j++; continue }
        if (i <= plains && (e = let(plain[i], "", 1))) { differ++; used[e] = 1; i++; continue }
        if (i <= plains && j <= monitoreds && (e = let(plain[i], monitored[j], 0))) { differ++; used[e] = 1; i++; j++; continue }
        if (wrong++ < 10) printf "line %d\n  without the monitor: %s\n  with it:             %s\n", i, plain[i], monitored[j]
        i++; j++
    }
    for (e = 1; e <= expressions; e++) if (!used[e]) { printf "no line differs as %s lets it\n", expression[e]; wrong++ }
    if (same < 20) { print "there are too few lines"; wrong++ }
    printf "%d lines the same, %d differ as they may, %d otherwise\n", same, differ, wrong
    exit wrong > 0
}
