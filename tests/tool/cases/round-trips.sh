# Pack and unpack undo each other, and what unpack writes is the one form. Lines that are broken, names of all lengths, a circuit with the most
# connections; tests/text does the same on generated circuits.
awk 'BEGIN {
    for (i = 0; i < 64; i++) print "input a_rather_long_name_of_an_input_number_" i " at " i - 32
    for (o = 0; o < 64; o++) {
        line = "output o" o " delay " o * 1000 " by 100000000 from"
        for (i = 63; i >= 0; i--) line = line " a_rather_long_name_of_an_input_number_" i
        print line
    }
}' >wide.hz

netlist_again() {
    "${tool[@]}" pack -o 1.netlist "$1" && "${tool[@]}" unpack -o 2.hz 1.netlist && "${tool[@]}" pack -o 2.netlist 2.hz && cmp 1.netlist 2.netlist
}
text_again() {
    "${tool[@]}" unpack -o 3.hz "$1" && "${tool[@]}" unpack 3.hz | cmp - 3.hz && "${tool[@]}" pack 3.hz | cmp - 1.netlist
}
same_budget() {
    "${tool[@]}" budget -f tsv "$1" | cut -f 1,3- >budget.tsv && "${tool[@]}" budget -f tsv 1.netlist | cut -f 1,3- | cmp - budget.tsv
}
narrow() {
    [ "$(wc -L <3.hz)" -le 172 ]
}
for circuit in circuit-a reader-port wide; do
    holds "$circuit through a netlist" netlist_again $circuit.hz
    holds "$circuit through text" text_again $circuit.hz
    holds "$circuit has one budget" same_budget $circuit.hz
done
holds "long lines are broken" narrow
