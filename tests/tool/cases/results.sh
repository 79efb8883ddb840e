# Results that do not fit circuit A.
s='100007 00 00000000 0002' two='11000a 0002 00000003 00000002' three='11000a 0003 00000002 0000000d'
try no-result bounds circuit-a.hz circuit-a.hz
result sound "$s $two $three"
result by-hand "$s 11000a 0002 00000003 0bebc200 $three"
result empty ''
result cut-summary '1000'
result cut "$s 11000a 00"
result short "$s $two"
result over "$s $two $three 00"
result tag "$s 12000a 0002 00000003 00000002 $three"
result tag-summary "110007 00 00000000 0002 $two $three"
result length "$s 110009 0002 00000003 000000 $three"
result mode "100007 02 00000000 0002 $two $three"
result share "100007 00 00000001 0002 $two $three"
result rounds "100007 01 00000001 0003 $two $three"
result order "$s $three $two"
result input "$s 11000a 0001 00000000 00000000 $two $three"
result base "$s 11000a 0002 00000004 00000002 $three"
result increment "$s $two 11000a 0003 00000002 0bebc201"
try draw-refused draw circuit-a.hz file.result
unhex "$s $two" >file.result
try from-input bounds circuit-a.hz - <file.result
