# frames.awk: in objdump's assembly of an archive, the stack of each entry: the frames of all
# functions of its object together, since none of them recurses. A frame is a constant that is taken
# off sp. A large one stands in a register, into which a lui, or a lui and an add, has just put it.
/ file format / { entry = $1; sub(/\.o:$/, "", entry); stack[entry] = 0 }
!/^ +[0-9a-f]+:\t/ { next }
{ i++; split($3, on, ",") }
$2 == "lui" { at = i; to = on[1]; size = 4096 * from_hex(on[2]); next }
i == at + 1 && $2 ~ /^addi?w?$/ && $3 ~ "^" to "," to ",-?[0-9]+$" { at = i; size += on[3]; next }
i == at + 1 && $2 == "sub" && $3 == "sp,sp," to { stack[entry] += size; next }
i == at + 1 && $2 == "add" && $3 == "sp,sp," to { next }
$2 ~ /^addi?$/ && $3 ~ /^sp,sp,-[0-9]+$/ { stack[entry] -= on[3]; next }
$2 ~ /^addi?$/ && $3 ~ /^sp,sp,[0-9]+$/ { next }
$3 ~ /^sp,/ { print "not a frame: " $0 > "/dev/stderr"; exit 1 }
END { for (entry in stack) print entry, stack[entry] }

function from_hex(text,    n, value) {
    for (n = 3; n <= length(text); n++) value = 16 * value + index("0123456789abcdef", substr(text, n, 1)) - 1
    return value
}
