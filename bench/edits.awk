# Sets limits in a text dump of a quota file as `setquota -b` does in the file: of the two files the first has lines with an
# identifier and its four limits, and the second is the dump. A timer that has to start ends a week after the moment `now`.
# Who is not in the dump comes behind it, in no order.
function timer(use, soft, old) {
    return !soft || use <= soft ? 0 : old ? old : now + 604800
}
FNR == NR { limits[$1] = $0; next }
$1 in limits {
    split(limits[$1], new)
    delete limits[$1]
    print $1, $2, new[2], new[3], timer($2, new[2], $5), $6, new[4], new[5], timer($6, new[4], $9)
    next
}
{ print }
END {
    for (id in limits) {
        split(limits[id], new)
        if (new[2] + new[3] + new[4] + new[5]) print id, 0, new[2], new[3], 0, 0, new[4], new[5], 0
    }
}
