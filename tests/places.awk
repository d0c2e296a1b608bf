# places.awk: follows the place of each word that a module's text loads or stores, back to an image,
# the outcome, the stack or a constant that is aligned: from a function that isn't inlined to what
# its calls hand in, and from a pointer that is loaded to all that are stored. Half a word is one of
# the totals, at a multiple of 4, and a quarter is loaded of a table of quarters. Prints each whose
# distance from there isn't seen to be a multiple of its size, then how many words, halves and
# quarters there are; fails where there is such a one, or no word at all.

/^@.* constant .*, align [0-9]+$/ {
    aligned[$1] = $NF % 8 == 0
    even[$1] = $NF % 2 == 0
}

/^define / {
    within = function_of($0)
    is_entry[within] = !/^define internal /
    count = arguments_of($0)
    for (i = 1; i <= count; i++) position[within, argument[i]] = i
}

/ call .*@/ && !/@llvm\./ {
    callee = function_of($0)
    caller[callee, ++calls[callee]] = within
    count = arguments_of($0)
    for (i = 1; i <= count; i++) handed[callee, calls[callee], i] = argument[i]
}

/^  store ptr / {
    keeper[++kept] = within
    pointer[kept] = substr($3, 1, length($3) - 1)
}

/^  %[^ ]+ = / {
    name = $1
    sub(/^  %[^ ]+ = /, "")
    made[within, name] = $0
}

/(^| )(load|store) i(16|32|64)[, ]/ {
    place = $0
    sub(/, align .*/, "", place)
    sub(/.* ptr /, "", place)
    places[FNR] = place
    home[FNR] = within
    size[FNR] = / i16[, ]/ ? 2 : / i32[, ]/ ? 4 : 8
    number[size[FNR]]++
}

END {
    for (line in places) {
        if (size[line] == 8 && is_place(home[line], places[line])) continue
        if (size[line] == 4 && is_total(home[line], places[line])) continue
        if (size[line] == 2 && is_of_quarters(home[line], places[line])) continue
        print "line " line ": " places[line] " isn't seen to be at a multiple of " size[line]
        fail = 1
    }
    print number[8] + 0, number[4] + 0, number[2] + 0
    exit fail || number[8] == 0
}

# Of an entry alone, and of what it is lent last.
function is_total(within, value,    what) {
    if (value == "%a9") return is_entry[within]
    what = made[within, value]
    if (what !~ /^getelementptr .*i8, ptr %a9, i64 [0-9]+$/) return 0
    return is_entry[within] && substr(what, match(what, /[0-9]+$/)) % 4 == 0
}

# Of a constant that is aligned, and counted in quarters.
function is_of_quarters(within, value,    what) {
    what = made[within, value]
    if (what !~ /^getelementptr .*i16, ptr @[^ ,]+, i64 /) return 0
    sub(/.*, ptr /, "", what)
    return even[substr(what, 1, index(what, ",") - 1)]
}

function is_place(within, value,    what, in_words) {
    if (value in aligned) return aligned[value]
    if ((within, value) in position) return is_handed_place(within, value)
    what = made[within, value]
    if (what ~ /^alloca /) return 1
    if (what ~ /^load ptr, /) return are_kept_places()
    if (what ~ /^phi ptr /) return are_all("place", within, what)
    if (what ~ /^select i1 %[^ ]+, ptr %[^ ]+, ptr %[^ ]+$/) return is_place(within, choice(what, 2)) && is_place(within, choice(what, 3))
    if (what !~ /^getelementptr .*i(8|64), ptr /) return 0
    in_words = what ~ /^getelementptr .*i64, ptr /
    sub(/.*, ptr /, "", what)
    return (in_words || is_eightfold(within, substr(what, index(what, ", i64 ") + 6))) && is_place(within, substr(what, 1, index(what, ",") - 1))
}

# A parameter: an entry's outcome, caps and hart, and another function's if each call hands in one.
function is_handed_place(callee, value,    i) {
    if (is_entry[callee]) return value == "%a0" || value == "%a1" || value == "%a3"
    for (i = 1; i <= calls[callee]; i++)
        if (!is_place(caller[callee, i], handed[callee, i, position[callee, value]])) return 0
    return calls[callee] > 0
}

# Whether each pointer that the module stores is one.
function are_kept_places(    i) {
    for (i = 1; i <= kept; i++)
        if (!is_place(keeper[i], pointer[i])) return 0
    return kept > 0
}

function is_eightfold(within, value) {
    if (value ~ /^-?[0-9]+$/) return value % 8 == 0
    value = made[within, value]
    if (value ~ /^zext .*i8 %[^ ]+ to i64$/) return is_eightfold(within, substr(value, match(value, /%/), match(value, / to /) - match(value, /%/)))
    if (value ~ /^shl .*, [0-9]+$/) return substr(value, match(value, /[0-9]+$/)) >= 3
    if (value ~ /^select i1 %[^ ]+, i64 [^ ]+, i64 [^ ]+$/) return is_eightfold(within, choice(value, 2)) && is_eightfold(within, choice(value, 3))
    if (value ~ /^add( nuw| nsw)* i64 %[^ ]+, [0-9]+$/) return substr(value, match(value, /[0-9]+$/)) % 8 == 0 && is_eightfold(within, substr(value, match(value, /%/), match(value, /,/) - match(value, /%/)))
    if (value ~ /^(and|mul)( nuw| nsw)* i64 .*, [0-9]+$/) return substr(value, match(value, /[0-9]+$/)) % 8 == 0
    return value ~ /^phi i64 / && are_all("eightfold", within, value)
}

# The second or the third of what a select has: one of the two that it chooses from.
function choice(what, n,    part) {
    split(what, part, ", ")
    sub(/^(ptr|i64) /, "", part[n])
    return part[n]
}

# Whether each value that a phi can take is one. In a loop it is if those before are, with which it
# begins.
function are_all(kind, within, phi,    word, i, count, all) {
    if ((kind, within, phi) in before) return 1
    before[kind, within, phi]
    all = 1
    count = split(phi, word, " ")
    for (i = 1; i < count && all; i++) {
        if (word[i] != "[") continue
        sub(/,$/, "", word[i + 1])
        all = kind == "place" ? is_place(within, word[i + 1]) : is_eightfold(within, word[i + 1])
    }
    delete before[kind, within, phi]
    return all
}

# The function that a line defines or calls.
function function_of(text) {
    match(text, /@("[^"]*"|[A-Za-z0-9_.]+)\(/)
    return substr(text, RSTART + 1, RLENGTH - 2)
}

# Fills `argument` with what stands in its brackets, and says how many there are.
function arguments_of(text,    count, i) {
    match(text, /@("[^"]*"|[A-Za-z0-9_.]+)\(/)
    text = substr(text, RSTART + RLENGTH)
    while (gsub(/\([^()]*\)/, "", text)) continue # what is said of an argument
    sub(/\).*/, "", text)
    count = split(text, argument, ", ")
    for (i = 1; i <= count; i++) sub(/.* /, "", argument[i])
    return count
}
