# Refusals of the library, for a netlist file: the place is a byte, and component 7 is n7.
i='010009 00 00000000 00000000' g='010009 01 00000003 00000000' o='010009 02 00000002 00000014' w='020004 0000 0001'
netlist sound "$i $o $w"
netlist broken-head '0100'
netlist broken-contents "$i 010009 00"
netlist tag-unknown "$i 050000"
netlist tag-length "$i 010008 00 00000000 000000"
netlist tag-connection-length "$i $o 020003 000000"
netlist tag-late-component "$i $o $w $i"
netlist tag-result '100007 00 00000000 0000'
netlist tag-pin "$i $o 020006 0000 0001 012c"
# 64 components fill the room that the tool has at first, so that a step past the last is seen by the sanitizers.
netlist tag-early-of-none "$(printf "$i %.0s" {1..64}) 030006 0040 00000000"
netlist field-kind '010009 03 00000000 00000000'
netlist field-delay "$i 010009 01 00010000 00000000"
netlist field-delay-input "$i 010009 00 00000001 00000000"
netlist field-time "$i 010009 01 00000003 00000001"
netlist field-time-early "$i 010009 02 00000003 fa0a1eff"
netlist wiring-number "$i $o 020004 0000 0002"
netlist wiring-no-component '020004 0000 0001'
netlist wiring-order "$i $i $o 020004 0001 0002 020004 0000 0002"
netlist wiring-twice "$i $o $w $w"
netlist wiring-back "$i $g $o 020004 0002 0001"
netlist wiring-self "$i $g $o 020004 0001 0001"
netlist ends "$i $g $o 020004 0000 0001"
netlist late "010009 00 00000000 00000013 $o $w"

# What no library takes yet is packed as its records will be, so that the library is what decides.
later='01000900000000000000000501000902000000010000000902000600000001012c030006000000000002030006000100000004'
packed_unjudged() {
    [ "$(printf 'input a at 5 early 2\noutput o delay 1 by 9 early 4 from a+300\n' | "${tool[@]}" pack --unjudged - | od -An -v -tx1 |
        tr -d ' \n')" = $later ]
}
holds "pins and early times are packed" packed_unjudged
nothing_packed() {
    [ -z "$("${tool[@]}" pack --unjudged - </dev/null)" ]
}
holds "of nothing an empty netlist is packed" nothing_packed
try later-records unpack --color never - < <(unhex "$later")
