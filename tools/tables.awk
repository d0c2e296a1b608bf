# tables.awk: of two modules as text, the second with the functions and the tables that the first
# has of its table.rt files. These call nothing, and both have them under the same names.
function name_of(line) {
    sub(/^[^@]*@"/, "", line)
    sub(/".*/, "", line)
    return line
}
FNR == NR && /^@"switch\.table/ { tables = tables $0 "\n" }
FNR == NR && /^define / { name = name_of($0); sub(/^define /, "define internal "); sub(/ #[0-9]+ \{$/, " #0 {") }
FNR == NR && name { gsub(/, ![a-z]+ ![0-9]+/, ""); text[name] = text[name] $0 "\n" }
FNR == NR && /^}/ { name = "" }
FNR == NR { next }
/^define / && tables { printf "%s\n", tables; tables = "" }
/^define / && name_of($0) in text { printf "%s", text[name_of($0)]; loaded = 1 }
!loaded { print }
/^}/ { loaded = 0 }
