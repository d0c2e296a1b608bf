# words.awk: in objdump's assembly of the archive for aligned images, are all loads and stores of
# words, with an offset that is a multiple of 8? Prints those that aren't, and fails then. Half a
# word is one of the totals, of which there must be as many as in the modules (-v halves=NUMBER): so
# the compiler makes no word of two, which might lie at a multiple of 4 alone. Or it is loaded of a
# table of jumps, which the compiler aligns: an add of it and then the jump come within eight
# instructions. A quarter of a word is loaded of a table, as often as in the modules (-v
# quarters=NUMBER). In a large frame the compiler makes a base of another one and 2047 bytes, the
# most that an add can take: then the sum counts.
!/^ +[0-9a-f]+:\t/ { next }
{ i++; split($3, on, /[,(]/) }
half && !added && $2 == "add" && (on[2] == to || on[3] == to) { to = on[1]; added = 1; next }
half && added && $2 == "jr" && $3 == to { half = added = 0; next }
half && i == half + 9 { seen++; half = added = 0 } # of no jump
$2 ~ /^addi?$/ && on[3] == 2047 { beyond[on[1]] = beyond[on[2]] + 2047; next }
$2 !~ /^[ls][hwd]u?$/ && $2 !~ /^(sb|b[a-z]+|j|jr|ret)$/ { delete beyond[on[1]] } # another value now
$2 !~ /^[ls][hwd]u?$/ { next }
$2 == "lw" && on[2] == 0 && !half { half = i; to = on[1]; next }
$2 == "lhu" && on[2] == 0 { loaded++; delete beyond[on[1]]; next }
$2 ~ /^(lwu?|sw)$/ && on[2] % 4 == 0 { seen++; if ($2 != "sw") delete beyond[on[1]]; next }
{ base = on[3]; sub(/\).*/, "", base) }
$2 !~ /^[ls]d$/ || (on[2] + beyond[base]) % 8 != 0 { print; bad = 1 }
$2 ~ /^l/ { delete beyond[on[1]] }
{ words++ }
END {
    if (seen != halves) print seen + 0 " halves of a word, and " halves " in the modules"
    if (loaded != quarters) print loaded + 0 " quarters of a word, and " quarters " in the modules"
    exit bad || half || words == 0 || seen != halves || loaded != quarters
}
