# Command lines that cannot be run, files that cannot be read or written; colours.
try no-command
try unknown-command fly circuit-a.hz
try unknown-option slacks --fast circuit-a.hz
try unknown-letter slacks -x circuit-a.hz
try longer-option slacks --worstest 3 circuit-a.hz
try flag-with-value budget --result=3 circuit-a.hz
try no-file slacks
try two-circuits slacks circuit-a.hz reader-port.hz
try three-files draw circuit-a.hz a.result b.result
try bounds-without-result bounds circuit-a.hz
try stray-worst pack --worst 3 circuit-a.hz
try stray-mode check -m even circuit-a.hz
try stray-unjudged unpack --unjudged circuit-a.hz
try stray-result slacks --result circuit-a.hz
try mode-unknown budget --mode odd circuit-a.hz
try mode-missing budget circuit-a.hz --mode
try mode-empty budget --mode= circuit-a.hz
try mode-beside-result draw --mode even circuit-a.hz a.result
try format-unknown slacks --format=json circuit-a.hz
try format-of-result budget --result --format tsv circuit-a.hz
try worst-none slacks --worst 0 circuit-a.hz
try worst-negative slacks --worst -3 circuit-a.hz
try worst-word slacks --worst 3x circuit-a.hz
try worst-long slacks --worst 99999999999999999999 circuit-a.hz
try color-unknown slacks --color red circuit-a.hz
try output-missing slacks circuit-a.hz -o
try both-from-input bounds - - <circuit-a.hz
try behind-dashes check -- -absent
try help-behind-dashes check -- --help
try absent check absent.hz
try absent-result bounds circuit-a.hz absent.result
try folder check .
try output-folder slacks -o . circuit-a.hz
try output-nowhere slacks -o absent/slacks.txt circuit-a.hz
try output-over-circuit unpack circuit-a.hz -o circuit-a.hz
try output-over-result bounds circuit-a.hz a.result -o ./a.result
try color-always check --color always - <<<"gate g"
try color-never check --color never - <<<"gate g"
holds "a circuit is not written over" cmp circuit-a.hz "$repository/examples/circuit-a.hz"

too_long() {
    head -c $((17 << 20)) /dev/zero | tr '\0' '\n' >long.hz
    try too-long check long.hz
    rm long.hz
}
too_long

nothing_left() { # ARGUMENT..: a refused command writes no file
    "${tool[@]}" "$@" -o untouched 2>/dev/null
    [ $? -eq 1 ] && [ ! -e untouched ]
}
holds "a refused text is not packed" nothing_left pack - <<<"gate g"
holds "a late circuit gets no result" nothing_left budget --result - <<<$'input a at 5\noutput o delay 1 by 3 from a'

full() {
    "${tool[@]}" slacks circuit-a.hz 2>said >/dev/full
    [ $? -eq 2 ] && grep -q '^hozbantir: standard output: ' said
}
full_output() {
    "${tool[@]}" slacks circuit-a.hz -o /dev/full 2>said
    [ $? -eq 2 ] && grep -q '^hozbantir: /dev/full: ' said && [ -c /dev/full ]
}
short() { # of the output file nothing is left if it could not be written whole
    (ulimit -f 1 && trap '' XFSZ && "${tool[@]}" draw reader-port.hz -o short.svg 2>said)
    [ $? -eq 2 ] && [ ! -e short.svg ]
}
if [ -c /dev/full ]; then
    holds "a full device" full
    holds "a full device as output" full_output
fi
holds "no short file is left" short

# On a terminal complaints are coloured, and bytes are kept from it.
on_terminal() { # ARGUMENT..
    local words
    printf -v words '%q ' "${tool[@]}" "$@"
    script -qc "$words" /dev/null </dev/null
}
says() { # WORDS ARGUMENT..
    local words=$1
    shift
    on_terminal "$@" | grep "$words" >/dev/null
}
coloured() { says $'\033\[1;31merror:' check faulty.hz; }
not_coloured() { NO_COLOR=1 says ' error: ' check faulty.hz && TERM=dumb says ' error: ' check faulty.hz; }
no_bytes() { says 'no text for a terminal' pack circuit-a.hz && says 'no text for a terminal' budget -b circuit-a.hz; }
if script -qc true /dev/null </dev/null >/dev/null 2>&1; then
    echo "gate g" >faulty.hz
    holds "colours on a terminal" coloured
    holds "no colours if they are not wanted" not_coloured
    holds "no bytes on a terminal" no_bytes
else
    echo "  skipped  what is seen on a terminal: script cannot make one here"
fi
