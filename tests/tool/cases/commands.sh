# Every command, on circuits that are sound.
try help --help
version=$(sed -n 's/^#define HOZBANTIR_VERSION "\(.*\)"$/\1/p' "$repository/include/hozbantir.h")
says_version() {
    [ "$("${tool[@]}" --version)" = "hozbantir $version, text form 1" ]
}
holds "the header's version" says_version
try check check circuit-a.hz
try check-netlist check circuit-a.netlist
try slacks slacks circuit-a.hz
try slacks-tsv slacks --format tsv circuit-a.hz
try slacks-worst slacks -w 3 reader-port.hz
try slacks-worst-attached slacks -w3 -f tsv reader-port.hz
try slacks-more-than-all slacks --worst=99 circuit-a.hz
try slacks-names-of-a-netlist slacks circuit-a.netlist
try budget budget circuit-a.hz
try budget-plain budget --mode plain circuit-a.hz
try budget-even-tsv budget --mode=even -f tsv circuit-a.hz
try budget-table budget --format table circuit-a.hz
try budget-reader-port budget reader-port.hz
try unpack unpack circuit-a.hz
try unpack-reader-port unpack reader-port.hz
try unpack-netlist unpack circuit-a.netlist
try input slacks - <circuit-a.hz
try input-netlist budget - <circuit-a.netlist
try draw draw -m even circuit-a.hz
try draw-no-budget draw circuit-a.hz
try draw-worst draw -w 6 reader-port.hz

"${tool[@]}" pack -o a.netlist circuit-a.hz
holds "circuit A packs to the shipped netlist" cmp a.netlist circuit-a.netlist
"${tool[@]}" budget --result -o a.result circuit-a.hz
"${tool[@]}" budget -b -m plain -o a-plain.result circuit-a.hz
try bounds bounds circuit-a.hz a.result
try bounds-plain bounds circuit-a.netlist a-plain.result
try bounds-tsv bounds -f tsv a.netlist a.result
try bounds-result-from-input bounds circuit-a.hz - <a.result
try draw-result draw circuit-a.hz a-plain.result

# The picture of the README is the one that the tool draws.
"${tool[@]}" draw --mode even -o reader-port.svg reader-port.hz
holds "the picture of the README" cmp reader-port.svg "$repository/docs/pictures/reader-port.svg"

# Of a wire over a hundred columns only the two ends are drawn, and counted there.
awk 'BEGIN {
    print "input g0 at 0"
    for (i = 1; i < 100; i++) print "gate g" i " delay 3 from g" i - 1
    print "output out delay 1 by 900 from g0 g99"
}' >chain.hz
long_wire() {
    [ "$("${tool[@]}" draw -w 200 chain.hz | grep -c '>+1</text>')" -eq 2 ]
}
holds "a long wire is cut" long_wire

help_fits() {
    [ "$("${tool[@]}" --help | wc -l)" -le 24 ] && [ "$("${tool[@]}" --help | wc -L)" -le 80 ]
}
holds "the help fits a screen of 24 lines and 80 columns" help_fits

output_is() { # OPTION FILE
    "${tool[@]}" slacks "$1" "$2" circuit-a.hz && [ "$("${tool[@]}" slacks circuit-a.hz)" = "$(cat "$2")" ]
}
holds "-o writes the same to a file" output_is -o slacks.txt
