# Shows what two agents did at each step of a script, and which entities of the bridge are left.
# Files: the script, then the outputs of the original and of the port. Bytes of a STATUS reply are put in words.

function byte(hex, at) { return index("0123456789abcdef", substr(hex, 2 * at + 1, 1)) * 16 - 16 + index("0123456789abcdef", substr(hex, 2 * at + 2, 1)) - 1 }
function words(line,   w) {
    split(line, w, " ")
    if (w[1] == "reply" && byte(w[2], 4) == 5) {
        return "reply STATUS " (byte(w[2], 8) + 256 * byte(w[2], 9)) (byte(w[2], 10) == 0 ? " OK" : " error " byte(w[2], 10))
    }
    return line == "refused 15" ? "no call ('done' refused: 15)" : line
}
function row(mark, a, b, c) { printf "%-3s%-38s %-28s %s\n", mark, a, b, c }

FNR == 1 { side++ }
side == 1 {
    if ($0 ~ /^#[:!] /) { steps++; point[steps] = ($0 ~ /^#!/); name[steps] = substr($0, 4) }
    if ($1 == "created") { made[++entities] = $3 }
    next
}
FNR == 1 { step = 0 }
$0 == "bad line" { step++; next }
$0 == "end" || step == 0 { next }
{ said[side, step, ++count[side, step]] = words($0) }
$1 == "call" && $2 == "delete_entity" { gone[side, $3] = 1 }

function left(side,   i, text) {
    for (i = 1; i <= entities; i++) if (!((side, made[i]) in gone)) text = text " " made[i]
    return "entities" text
}
END {
    print "One script, two agents. Client 1's reader is entity 3 of the bridge. Client 2 has a Publisher,"
    print "which it calls object 3; a Publisher has no entity in the bridge.\n"
    row("", "step", "the original", "this port")
    for (s = 1; s <= steps; s++) {
        most = count[2, s] > count[3, s] ? count[2, s] : count[3, s]
        for (i = 1; i <= most; i++) row(point[s] ? "=>" : "", i == 1 ? name[s] : "", said[2, s, i], said[3, s, i])
    }
    row("=>", "left in the bridge", left(2), left(3))
    print "\nThe lines marked => are the point: the original takes the object's number for a handle and deletes"
    print "entity 3, the reader of client 1. The port hands out no handle that the bridge didn't return to"
    print "the same client, so it makes no call, and the reader stays."
}
