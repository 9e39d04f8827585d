# cuts.awk: random scripts with power cuts and failed reads, and a plain sector array with power cuts to judge their replies.
# With `seed` it prints a script. With `script` it reads the replies to that script and prints each that the array cannot give.
function pick(n) { return int(rand() * n) }
function bytes(   s, n) { s = ""; for (n = pick(3); n >= 0; n--) s = s sprintf("%02x", 1 + pick(255)); return s }
function torn(   k) { k = pick(3); return k == 0 ? "none" : k == 1 ? "all" : sprintf("mask:%08x%08x", pick(2147483647), pick(2147483647)) }
function line(   k) {
    k = pick(20)
    if (k < 9) return "write " pick(sectors) " " bytes()
    if (k < 12) return "read " pick(sectors)
    if (k < 13) return "trim " pick(sectors)
    if (k < 14) return "idle " pick(4)
    if (k < 16) return "cut " 1 + pick(7) " " torn()
    if (k < 17) return "failread " 1 + pick(9)
    return k < 19 ? "mount" : "stat"
}
function wrong(why) { print "line " NR ", " $0 " to " text ": " why; exit 1 }
# the row is one of those that it may be, and is fixed from then on
function settle(s, row) {
    if (index(may[s], " " row " ") == 0) wrong("none of" may[s])
    may[s] = " " row " "
}
BEGIN {
    if (script == "") {
        srand(seed)
        for (n = 0; n < 60; n++) print line()
        for (s = 0; s < sectors; s++) print "mount\nread " s
        exit
    }
    for (s = 0; s < sectors; s++) may[s] = " - "
}
{
    if ((getline text < script) <= 0) wrong("a reply too many")
    split(text, part, " ")
    command = part[1]; s = part[2]; row = command == "trim" ? "-" : part[3]
    if ($0 == "fault" && !armed) wrong("nothing is armed")
    if ($0 == "off" && !maybe_off) wrong("nothing failed")
    # a device that answers goes on: the write under way did not stop it, so its row is as before
    if (command != "mount" && command != "stat" && $0 != "off" && maybe_off) { maybe_off = 0; if (last != "") may[last] = before }
    if ($0 == "off") next
    if (command == "write" || command == "trim") {
        if ($0 == "fault") { before = may[s]; may[s] = before row " "; last = s; maybe_off = 1 }
        else if ($0 ~ (command == "trim" ? "^ok$" : "^(first|second|declined)$")) may[s] = " " row " "
        else wrong("no such reply")
    } else if (command == "read") {
        if ($0 != "fault") settle(s, $0)
    } else if (command == "idle") {
        if ($0 == "fault") { last = ""; maybe_off = 1 }
        else if ($0 !~ /^[0-9]+$/ || $0 + 0 > s) wrong("no such number")
    } else if (command == "mount") {
        if ($0 == "fault") { maybe_off = 1; last = "" }
        else if ($0 == "ok") maybe_off = 0
        else wrong("no such reply")
    } else if (command == "stat") {
        if ($0 !~ /^first [0-9]+ second [0-9]+ declined [0-9]+ moved [0-9]+ erased [0-9]+$/) wrong("no counts")
    } else {
        if ($0 != "ok") wrong("not armed")
        armed++
    }
    if ($0 == "fault") armed--
}
END { if (script != "" && (getline text < script) > 0) { print "no reply to " text; exit 1 } }
