# Text that cannot be put into records, and text that is odd but sound.
a='input a at 0\n'
text kind 'inptu a at 0\n'
text name-missing 'input\n'
text nanoseconds "${a}gate g delay 1.5ns from a\n"
text nanoseconds-apart "${a}gate g delay 1.5 ns from a\n"
text unit-apart "${a}gate g delay 15 ns from a\n"
text picoseconds "${a}gate g delay 3ps from a\n"
text microseconds 'input a at -2US\n'
text seconds 'input a at 1s\n'
text no-unit 'input a at 5nsec\n'
text part-of-a-picosecond "${a}gate g delay 1.0004ns from a\n"
text point 'input a at 1500.0\n'
text two-points 'input a at 1.5.0\n'
text long-decimal 'input a at 1.00000000000\n'
text thousands 'input a at 1,500\n'
text minus 'input a at \xe2\x88\x925\n'
text dash 'input a at -\n'
text plus 'input a at +5\n'
text hexadecimal 'input a at 0x10\n'
text negative "${a}gate g delay -3 from a\n"
text negative-zero "${a}gate g delay -0 from a\n"
text great 'input a at 99999999999999999999\n'
text great-negative 'input a at -2147483649\n'
text great-delay "${a}gate g delay 4294967296 from a\n"
text number-missing 'input a at\n'
text number-before-comment 'input a at   # soon\n'
text word-for-number 'input a at early 3\n'
text comma "${a}output o delay 1 by 9 from a, a\n"
text equals "${a}output o delay=1 by 9 from a\n"
text pin-apart "${a}output o delay 1 by 9 from a +3\n"
text pin-great "${a}output o delay 1 by 9 from a+65536\n"
text pin-missing "${a}output o delay 1 by 9 from a+\n"
text pin-negative "${a}output o delay 1 by 9 from a+-0\n"
text pin-name "${a}output o delay 1 by 9 from a=b+3\n"
text accent 'input caf\xc3\xa9 at 0\n'
text control 'input a\x07 at 0\n'
text control-of-two-bytes 'input \xc2\x9b31m at 0\n'
text no-utf8 'input a\xff\xc3 at 0\n'
text nul 'input a\x00 at 0\n'
text escape ' \x1b[31mred\n'
text utf16 '\xff\xfei\x00'
text utf16-other '\xfe\xff\x00i'
text name-of-64 "input $(printf 'n%.0s' {1..64}) at 0\n"
text name-of-63 "input $(printf 'n%.0s' {1..63}) at 0\noutput o delay 1 by 9 from $(printf 'n%.0s' {1..63})\n"
text name-reserved 'input from at 0\n'
text name-number 'input 300 at 0\n'
text name-dash 'input -a at 0\n'
text name-hash 'input # at 0\n'
text word-twice 'input a at 0 at 1\n'
text from-twice "${a}output o delay 1 by 9 from a from a\n"
text from-nothing 'input a at 0 from\noutput o delay 1 by 5 from a\n'
text from-nothing-before-a-word "${a}output o delay 1 from by 5\n"
text from-nothing-before-a-comment "${a}output o delay 1 by 5 from # a\n"
text stray-word 'input a 5\n'
text stray-name "${a}output o delay 1 by 9 x from a\n"
text stray-kind "${a}output o delay 1 by 9 from a gate\n"
text driver "${a}output o delay 1 by 9 linear 2.5 from a\n"
text driver-pad "${a}output o delay 1 by 9 pad 800 from a\n"
text lacks-at 'input a\n'
text lacks-delay "${a}gate g from a\n"
text lacks-by "${a}output o delay 3 from a\n"
text lacks-two "${a}output o from a\n"
text input-by 'input a at 0 by 4\n'
text gate-at "${a}gate g delay 2 at 4 from a\n"
text gate-by "${a}gate g delay 2 by 4 from a\n"
text gate-early "${a}gate g delay 2 early 4 from a\n"
text output-at "${a}output o delay 2 by 9 at 4 from a\n"
text output-at-first "${a}output o at 4 by 9 delay 2 from a\n"
text unknown-name "input clk at 0\noutput o delay 1 by 9 from clq\n"
text unknown-in-the-readme 'input   clk  at 0\ninput   b    at 5\ngate    g    delay 3  from clq\noutput  out  delay 2  by 20  from b g\n'
text unknown-by-case "input CLK at 0\noutput o delay 1 by 9 from clk\n"
text unknown-left-out 'input clock at 0\noutput o delay 1 by 9 from cloc\n'
text unknown-put-in 'input reset at 0\noutput o delay 1 by 9 from resset\n'
text unknown-and-nothing-like-it "${a}output o delay 1 by 9 from z\n"
text same-name "input b at 0\ninput a at 4\ninput b at 1\ninput a at 0\n"
text several "gate g\nipnut a at 0\n\noutput o delay x by 9 from a\n"
text many "$(printf 'x%.0s\\n' {1..14})"
text many-with-hints "$(printf 'gate g%s\\n' {1..12})"
text carried "${a}gate g \\\\\n  delay 1.5 \\\\\n from a\n"
text carried-not "${a}gate g delay 1 \\\\ from a\n"
text tabs "${a}\toutput\to\tdelay\t1x\n"
text long-line "${a}output o delay 1 by 9 from $(printf 'a%.0s ' {1..60}) b+x $(printf 'a%.0s ' {1..60})\n"
text crlf-place "input a at x\r\noutput o delay 1 by 9 from a\r\n"
text mark-place "\xef\xbb\xbfinput a at x"
text wide-characters "${a}output o delay 1 by 9 from a \xc3\xa4\xe2\x82\xac\n"
text twice-lines "${a}output o delay 1 by 9 from a \\\\\n a\n"
text crlf "input a at 0\r\noutput o delay 1 by 9 from a\r\n"
text mark "\xef\xbb\xbfinput a at 0\noutput o delay 1 by 9 from a"
text carried-blank "${a}output o delay 1 \\\\ \n  by 9 from a\n"
text names 'input /RAS at 0\ninput RAS# at 0\ninput 1Y at 0\noutput D[3] delay 1 by 9 from /RAS RAS# 1Y\n'
text any-order 'output o from g by 0009 delay 00\ngate g from a delay 1\ninput a at -0\n'
{
    for ((at = 0; at < 65537; at++)); do echo "input i$at at 0"; done
} >numbered.hz
try more-than-can-be-numbered check numbered.hz
rm numbered.hz
