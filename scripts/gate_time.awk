# What the gate tried: from what rt ci said, a row for each crate with its proved functions and its refused edits, those with most edits first. What the run took in all the gate says itself.
/^== [a-z_0-9]+$/ { crate = $2; crates[crate] = 1 }
/^fn [a-z_0-9]+::.*: proved$/ { split($2, name, "::"); proved[name[1]]++ }
/^rt: must-fail [^ ]+: refused, as it must be/ { split($3, name, "/"); crates[name[1]] = 1; edits[name[1]]++ }
END {
    print "| crate | functions | edits |"
    print "|---|---:|---:|"
    for (c in crates) {
        printf "| `%s` | %d | %d |\n", c, proved[c], edits[c] | "sort -t'|' -k4,4nr -k3,3nr"
        p += proved[c]; e += edits[c]
    }
    close("sort -t'|' -k4,4nr -k3,3nr")
    printf "| all | %d | %d |\n", p, e
}
