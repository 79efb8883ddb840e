# Refusals of the library, for a text: the line and the column are those of what is refused.
a='input a at 0\n'
text size-empty '# nothing\n\n'
text size-no-byte ''
{
    for at in {0..1023}; do echo "input i$at at 0"; done
    echo "output o delay 1 by 9 from i0"
} >components.hz
try size-components check components.hz
awk 'BEGIN {
    for (i = 0; i < 100; i++) print "input i" i " at 0"
    for (o = 0; o < 41; o++) {
        line = "output o" o " delay 1 by 9 from"
        for (i = 0; i < 100 && wires < 4097; i++) { line = line " i" i; wires++ }
        print line
    }
}' >connections.hz
try size-connections check connections.hz
text field-delay "${a}gate g from a delay 65536\noutput o delay 1 by 9 from g\n"
text field-arrival "input a at 100000001\noutput o delay 1 by 9 from a\n"
text field-required "${a}output o delay 1 by -100000001 from a\n"
text field-edges "input a at -100000000\noutput o delay 65535 by 100000000 from a\n"
text field-pad-wire "input a at 0 delay 120\noutput o delay 1 by 9 from a\n"
text wiring-order "${a}gate g delay 1 from a h\ngate h delay 2 from a\noutput o delay 1 by 9 from g h\n"
text wiring-self "${a}gate g delay 1 from a g\noutput o delay 1 by 9 from g\n"
text wiring-twice "${a}input b at 0\noutput o delay 1 by 9 from b a b\n"
text ends-input "${a}input b at 0 from a\noutput o delay 1 by 9 from b\n"
text ends-unfed "${a}gate g delay 1\noutput o delay 1 by 9 from a g\n"
text ends-unfed-output "${a}output o delay 1 by 9\noutput p delay 1 by 9 from a\n"
text ends-idle "${a}gate g delay 1 from a\noutput o delay 1 by 9 from a\n"
text ends-idle-input "${a}input b at 0\noutput o delay 1 by 9 from a\n"
text ends-busy "${a}output busy delay 4 by 900 from a\noutput o delay 1 by 9 from busy\n"
text tag-pin "${a}gate g delay 1 from a\noutput o delay 1 by 9 from g a+300\n"
text tag-early "${a}input b at 5 early 2\noutput o delay 1 by 9 early 4 from a b\n"
b='input a at 0\ngate g delay 4 from a\noutput o delay 6 by'
text late "$b 9 from g\n"
text just-in-time "$b 10 from g\n"
printf '%b' "$b 9 from g\n" >late.hz
try late-budget budget late.hz
try late-budget-tsv budget --format tsv --mode plain late.hz
try late-slacks slacks late.hz
try late-draw draw late.hz
try late-draw-even draw -m even late.hz
printf '%b' "$b 10 from g\noutput p delay 9 by 0 from g\noutput q delay 9 by 12 from g\n" >late-two.hz
try late-two budget late-two.hz
try late-worst slacks -w 2 late-two.hz
