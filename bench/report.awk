# Prints the lines of a report from a text dump of a quota file, for the moment `now`; with the names of a file in the form
# of passwd(5), where `names` names one.
function period(s,    m, h) {
    m = int((s + 30) / 60); h = int(m / 60)
    return h >= 48 ? int(h / 24) "days" : sprintf("%02d:%02d", h, m % 60)
}
function grace(over, timer) {
    return !over ? "-" : timer <= now ? "none" : period(timer - now)
}
function shown(id) {
    return id in name ? name[id] : "#" id
}
BEGIN {
    while (names && (getline line <names) > 0) {
        split(line, field, ":")
        if (!(field[3] in name)) name[field[3]] = field[1]
    }
}
{
    bover = $3 && $2 > $3; iover = $7 && $6 > $7
    printf "%-12s %s%s %10s %10s %10s %6s %8s %8s %8s %6s\n", shown($1),
        bover || ($4 && $2 > $4) ? "+" : "-", iover || ($8 && $6 > $8) ? "+" : "-",
        $2, $3, $4, grace(bover, $5), $6, $7, $8, grace(iover, $9)
}
