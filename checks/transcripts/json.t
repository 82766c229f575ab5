What `--json` prints: one object on one line, with the keys of the report's lines.

  $ tdelay sim $NETLISTS/hazard.v 111 011 --json
  {"proved":true,"command":"sim","file":"$NETLISTS/hazard.v","question":{"default":{"rise":1,"fall":1},"output":[],"from":"111","to":"011","named":[]},"unit":"1 ns","defaulted":0,"last":[{"output":"y","time":5}],"time":5}
  $ tdelay sim $NETLISTS/hazard.v 111 111 --json
  {"proved":true,"command":"sim","file":"$NETLISTS/hazard.v","question":{"default":{"rise":1,"fall":1},"output":[],"from":"111","to":"111","named":[]},"unit":"1 ns","defaulted":0,"last":[{"output":"y","time":null}],"time":0}
  $ tdelay sim $NETLISTS/c17.v 00000 11111 --json
  {"proved":true,"command":"sim","file":"$NETLISTS/c17.v","question":{"default":{"rise":1,"fall":1},"output":[],"from":"00000","to":"11111","named":[]},"unit":"1 ns","defaulted":6,"last":[{"output":"N22","time":2},{"output":"N23","time":3}],"time":3}
  $ tdelay path $NETLISTS/hazard.v 111 011 --json
  {"proved":true,"command":"path","file":"$NETLISTS/hazard.v","question":{"default":{"rise":1,"fall":1},"output":[],"from":"111","to":"011","named":[]},"unit":"1 ns","defaulted":0,"change":[{"time":0,"net":"s","old":"1","new":"0","by":"input"},{"time":3,"net":"n","old":"0","new":"1","by":"not","delay":3},{"time":4,"net":"q","old":"0","new":"1","by":"and","delay":1},{"time":5,"net":"y","old":"0","new":"1","by":"or","delay":1}]}
  $ tdelay path $NETLISTS/hazard.v 111 111 --json
  {"proved":true,"command":"path","file":"$NETLISTS/hazard.v","question":{"default":{"rise":1,"fall":1},"output":[],"from":"111","to":"111","named":[]},"unit":"1 ns","defaulted":0,"time":0}
  $ tdelay path $NETLISTS/hazard.v 111 111 --output y --json
  {"proved":true,"command":"path","file":"$NETLISTS/hazard.v","question":{"default":{"rise":1,"fall":1},"output":[],"from":"111","to":"111","named":[],"net":"y"},"unit":"1 ns","defaulted":0,"last":[{"output":"y","time":null}]}
  $ tdelay bound $NETLISTS/lost_pulse.v --edges --json
  {"proved":true,"command":"bound","file":"$NETLISTS/lost_pulse.v","question":{"default":{"rise":1,"fall":1},"output":[],"named":[]},"unit":"1 ns","defaulted":0,"a":3,"t":null,"m":3,"e":3,"n":3}
  $ tdelay bound $NETLISTS/inverter.v --json
  {"proved":true,"command":"bound","file":"$NETLISTS/inverter.v","question":{"default":{"rise":1,"fall":1},"output":[],"named":[]},"unit":"1 ns","defaulted":0,"a":3,"t":null,"m":3}
  $ tdelay worst $NETLISTS/hazard.v --path --cert hazard.cert --json
  {"proved":true,"command":"worst","file":"$NETLISTS/hazard.v","question":{"default":{"rise":1,"fall":1},"output":[],"named":[]},"unit":"1 ns","defaulted":0,"exact":5,"from":"000","to":"101","nodes":9,"units":0,"change":[{"time":0,"net":"s","old":"0","new":"1","by":"input"},{"time":3,"net":"n","old":"1","new":"0","by":"not","delay":3},{"time":4,"net":"q","old":"1","new":"0","by":"and","delay":1},{"time":5,"net":"y","old":"1","new":"0","by":"or","delay":1}]}
  $ tdelay worst $NETLISTS/adder_8.v --strategy least --budget 20 --json
  {"proved":true,"command":"worst","file":"$NETLISTS/adder_8.v","question":{"default":{"rise":1,"fall":1},"output":[],"named":[]},"unit":"1 ns","defaulted":0,"between":[45,53],"cause":"budget","from":"00000000000000000","to":"00000000111111111","nodes":20,"units":0}
  [3]
  $ tdelay check $NETLISTS/hazard.v hazard.cert --json
  {"proved":true,"command":"check","file":"$NETLISTS/hazard.v","question":{"certificate":"hazard.cert"},"accepted":{"exact":5}}
  $ tdelay worst $NETLISTS/inverter.v --flips 0 --at 2 --cert still.cert --json
  {"proved":true,"command":"worst","file":"$NETLISTS/inverter.v","question":{"default":{"rise":1,"fall":1},"output":[],"at":"2","named":[],"flips":0},"unit":"1 ns","defaulted":0,"exact":0,"from":"0","to":"0","nodes":7,"units":0}
  $ tdelay check $NETLISTS/inverter.v still.cert --json
  {"proved":true,"command":"check","file":"$NETLISTS/inverter.v","question":{"certificate":"still.cert"},"accepted":{"exact":0},"first":".","second":".","hold":".","flips":0,"at":[2]}
  $ tdelay parts $NETLISTS/c17.v --parts 2 --hold ==... --flips 3 --at 0,1,0,0,0 --json
  {"proved":true,"command":"parts","file":"$NETLISTS/c17.v","question":{"default":{"rise":1,"fall":1},"output":[],"hold":"==...","at":"0,1,0,0,0","named":[],"flips":3},"parts":[{"options":["--first","0....","--second",".....","--hold","==...","--flips","3","--at","0,1,0,0,0"]},{"options":["--first","1....","--second",".....","--hold","==...","--flips","3","--at","0,1,0,0,0"]}]}
  $ tdelay worst $NETLISTS/c17.v --first 0.... --cert 1.cert --json
  {"proved":true,"command":"worst","file":"$NETLISTS/c17.v","question":{"default":{"rise":1,"fall":1},"output":[],"first":"0....","named":[]},"unit":"1 ns","defaulted":6,"exact":3,"from":"00000","to":"11111","nodes":1,"units":0}
  $ tdelay worst $NETLISTS/c17.v --first 1.... --cert 2.cert --json
  {"proved":true,"command":"worst","file":"$NETLISTS/c17.v","question":{"default":{"rise":1,"fall":1},"output":[],"first":"1....","named":[]},"unit":"1 ns","defaulted":6,"exact":3,"from":"10000","to":"01111","nodes":1,"units":0}
  $ tdelay join $NETLISTS/c17.v 1.cert 2.cert --no-check --json
  {"proved":true,"command":"join","file":"$NETLISTS/c17.v","question":{"default":{"rise":1,"fall":1},"output":[],"named":[]},"unit":"1 ns","defaulted":6,"unchecked":{"exact":3},"from":"00000","to":"11111","nodes":3}
  $ tdelay join $NETLISTS/c17.v 1.cert --first 0.... --json
  {"proved":true,"command":"join","file":"$NETLISTS/c17.v","question":{"default":{"rise":1,"fall":1},"output":[],"first":"0....","named":[]},"unit":"1 ns","defaulted":6,"exact":3,"from":"00000","to":"11111","nodes":1,"first":"0....","second":".....","hold":".....","flips":5}
  $ tdelay join $NETLISTS/c17.v 1.cert 2.cert --cert c17.cert --json
  {"proved":true,"command":"join","file":"$NETLISTS/c17.v","question":{"default":{"rise":1,"fall":1},"output":[],"named":[]},"unit":"1 ns","defaulted":6,"exact":3,"from":"00000","to":"11111","nodes":3}
  $ tdelay info $NETLISTS/hazard.v --json
  {"proved":true,"command":"info","file":"$NETLISTS/hazard.v","question":{"default":{"rise":1,"fall":1},"output":[]},"module":"hazard","unit":"1 ns","inputs":3,"outputs":1,"gates":4,"defaulted":0,"depth":3,"delay":{"least":1,"greatest":3},"input":[{"index":0,"name":"s"},{"index":1,"name":"a"},{"index":2,"name":"b"}],"output":[{"index":0,"name":"y"}]}

A refused certificate, and one that is refused for a line of it.

  $ sed 's/^time 5/time 4/' hazard.cert > early.cert; tdelay check $NETLISTS/hazard.v early.cert --json
  {"proved":true,"command":"check","file":"$NETLISTS/hazard.v","question":{"certificate":"early.cert"},"refused":{"number":2,"verdict":"PairTime"}}
  [4]
  $ tdelay worst $NETLISTS/inverter.v --flips 0 --cert still.cert > told; sed '12s/.*/none/' still.cert > empty.cert
  $ tdelay check $NETLISTS/inverter.v empty.cert --json
  {"proved":true,"command":"check","file":"$NETLISTS/inverter.v","question":{"certificate":"empty.cert"},"refused":{"number":9,"verdict":"LeafNotEmpty","line":12}}
  [4]

Numbers are known by the key and the place in the line: names, vectors and levels are strings, also
where they look like numbers or have a space, a quote or a backslash.

  $ cat > names.v <<'END'
  > module \12 (\1 , \a+ , never, \y" );
  > input \1 ;
  > input [1:0] \a+ ;
  > output never;
  > output [1:0] \y" ;
  > buf #2 (never, \1 );
  > and #3 (\y" [1], \1 , \a+ [0]);
  > not (\y" [0], \a+ [1]);
  > endmodule
  > END
  $ tdelay info names.v --json
  {"proved":true,"command":"info","file":"names.v","question":{"default":{"rise":1,"fall":1},"output":[]},"module":"\\12","unit":"1 ns","inputs":3,"outputs":3,"gates":3,"defaulted":1,"depth":1,"delay":{"least":1,"greatest":3},"input":[{"index":0,"name":"\\1"},{"index":1,"name":"\\a+ [1]"},{"index":2,"name":"\\a+ [0]"}],"output":[{"index":0,"name":"never"},{"index":1,"name":"\\y\" [1]"},{"index":2,"name":"\\y\" [0]"}]}
  $ tdelay sim names.v 000 101 --json
  {"proved":true,"command":"sim","file":"names.v","question":{"default":{"rise":1,"fall":1},"output":[],"from":"000","to":"101","named":[]},"unit":"1 ns","defaulted":1,"last":[{"output":"never","time":2},{"output":"\\y\" [1]","time":3},{"output":"\\y\" [0]","time":null}],"time":3}
  $ tdelay path names.v 000 101 --json
  {"proved":true,"command":"path","file":"names.v","question":{"default":{"rise":1,"fall":1},"output":[],"from":"000","to":"101","named":[]},"unit":"1 ns","defaulted":1,"change":[{"time":0,"net":"\\1","old":"0","new":"1","by":"input"},{"time":3,"net":"\\y\" [1]","old":"0","new":"1","by":"and","delay":3}]}
  $ tdelay path names.v 000 101 --output '\y" [0]' --json
  {"proved":true,"command":"path","file":"names.v","question":{"default":{"rise":1,"fall":1},"output":[],"from":"000","to":"101","named":[],"net":"\\y\" [0]"},"unit":"1 ns","defaulted":1,"last":[{"output":"\\y\" [0]","time":null}]}
  $ tdelay worst names.v --first 0.. --second 1.. --json
  {"proved":true,"command":"worst","file":"names.v","question":{"default":{"rise":1,"fall":1},"output":[],"first":"0..","second":"1..","named":[]},"unit":"1 ns","defaulted":1,"exact":3,"from":"000","to":"111","nodes":1,"units":0}

A netlist without inputs, and one without gates.

  $ printf "module one(y); output y; buf #3 (y, 1'b1); endmodule" > one.v
  $ tdelay info one.v --json
  {"proved":true,"command":"info","file":"one.v","question":{"default":{"rise":1,"fall":1},"output":[]},"module":"one","unit":"1 ns","inputs":0,"outputs":1,"gates":1,"defaulted":0,"depth":1,"delay":{"least":3,"greatest":3},"output":[{"index":0,"name":"y"}]}
  $ tdelay sim one.v none none --json
  {"proved":true,"command":"sim","file":"one.v","question":{"default":{"rise":1,"fall":1},"output":[],"from":"none","to":"none","named":[]},"unit":"1 ns","defaulted":0,"last":[{"output":"y","time":null}],"time":0}
  $ tdelay worst one.v --json
  {"proved":true,"command":"worst","file":"one.v","question":{"default":{"rise":1,"fall":1},"output":[],"named":[]},"unit":"1 ns","defaulted":0,"exact":0,"from":"none","to":"none","nodes":1,"units":0}
  $ tdelay parts one.v --parts 2 --json
  {"proved":true,"command":"parts","file":"one.v","question":{"default":{"rise":1,"fall":1},"output":[],"named":[]},"parts":[{"options":["--first","none","--second","none"]}]}
  $ printf "module wire_only(a); input a; endmodule" > bare.v
  $ tdelay info bare.v --json
  {"proved":true,"command":"info","file":"bare.v","question":{"default":{"rise":1,"fall":1},"output":[]},"module":"wire_only","unit":"1 ns","inputs":1,"outputs":0,"gates":0,"defaulted":0,"depth":0,"delay":null,"input":[{"index":0,"name":"a"}]}
  $ tdelay sim bare.v 0 1 --json
  {"proved":true,"command":"sim","file":"bare.v","question":{"default":{"rise":1,"fall":1},"output":[],"from":"0","to":"1","named":[]},"unit":"1 ns","defaulted":0,"time":0}

Files are written as without it. One that goes to standard output is alone there.

  $ tdelay sim $NETLISTS/inverter.v 0 1 --vcd inverter.vcd --json; grep -c '^#' inverter.vcd
  {"proved":true,"command":"sim","file":"$NETLISTS/inverter.v","question":{"default":{"rise":1,"fall":1},"output":[],"from":"0","to":"1","named":[]},"unit":"1 ns","defaulted":0,"last":[{"output":"y","time":3}],"time":3}
  3
  $ tdelay sim $NETLISTS/inverter.v 0 1 --vcd - --json | cmp - inverter.vcd
  $ tdelay worst $NETLISTS/hazard.v --cert - --json | cmp - hazard.cert
  $ tdelay worst $NETLISTS/adder_8.v --strategy least --budget 20 --cert - --json
  {"proved":true,"command":"worst","file":"$NETLISTS/adder_8.v","question":{"default":{"rise":1,"fall":1},"output":[],"named":[]},"unit":"1 ns","defaulted":0,"between":[45,53],"cause":"budget","from":"00000000000000000","to":"00000000111111111","nodes":20,"units":0}
  [3]

Help and the version are no reports.

  $ tdelay sim --help --json | cmp - <(tdelay sim --help)
  $ tdelay check --json --help | head -1
  Checks the certificate of a worst delay by the netlist alone

Refusals, statuses and hints are as without it.

  $ tdelay sim $NETLISTS/inverter.v 0 --json
  error: the following required arguments were not provided:
    <TO>
  
  Usage: tdelay sim --json <FILE> <FROM> <TO>
  
  For more information, try '--help'.
  [2]
  $ tdelay sim $NETLISTS/inverter.v 0 11 --json
  {"proved":true,"command":"sim","file":"$NETLISTS/inverter.v","question":{"default":{"rise":1,"fall":1},"output":[],"from":"0","to":"11","named":[]},"error":{"kind":"command","message":"bad vector TO","hint":"TO: 1 characters, one for each of a; got 2\n  help: write 0, 1 or x for each, the first character for the first input"},"status":2}
  tdelay: bad vector TO
  [2]
  $ tdelay sim $NETLISTS/inverter.v 0 11 --json --hints
  {"proved":true,"command":"sim","file":"$NETLISTS/inverter.v","question":{"default":{"rise":1,"fall":1},"output":[],"from":"0","to":"11","named":[]},"error":{"kind":"command","message":"bad vector TO","hint":"TO: 1 characters, one for each of a; got 2\n  help: write 0, 1 or x for each, the first character for the first input"},"status":2}
  tdelay: bad vector TO
  TO: 1 characters, one for each of a; got 2
    help: write 0, 1 or x for each, the first character for the first input
  [2]
  $ tdelay info nowhere.v --json
  {"proved":true,"command":"info","file":"nowhere.v","question":{"default":{"rise":1,"fall":1},"output":[]},"error":{"kind":"file","message":"cannot read nowhere.v","hint":"nowhere.v: there is no file of this name\n  help: look at the path, from the folder that the command runs in; - is standard input"},"status":5}
  tdelay: cannot read nowhere.v
  [5]
  $ tdelay sim $NETLISTS/inverter.v 0 1 --vcd nowhere/out.vcd --json
  {"proved":true,"command":"sim","file":"$NETLISTS/inverter.v","question":{"default":{"rise":1,"fall":1},"output":[],"from":"0","to":"1","named":[]},"unit":"1 ns","defaulted":0,"last":[{"output":"y","time":3}],"time":3}
  tdelay: cannot write nowhere/out.vcd
  [5]
  $ tdelay sim $NETLISTS/inverter.v 0 1 --json > /dev/full
  tdelay: cannot write stdout
  [5]
  $ cp $NETLISTS/inverter.v mine.v; tdelay sim mine.v 0 1 --vcd mine.v --json
  {"proved":true,"command":"sim","file":"mine.v","question":{"default":{"rise":1,"fall":1},"output":[],"from":"0","to":"1","named":[]},"error":{"kind":"command","message":"mine.v is mine.v","hint":"to write mine.v would overwrite mine.v, which this command reads or writes; nothing was done\n  help: give --cert or --vcd another name"},"status":2}
  tdelay: mine.v is mine.v
  [2]
  $ echo 'module t(a); input a; output y; endmodule' > bad.v; tdelay info bad.v --json
  {"proved":true,"command":"info","file":"bad.v","question":{"default":{"rise":1,"fall":1},"output":[]},"error":{"kind":"netlist","line":1,"message":"netlist fault 15 PortUndeclared at line 1","hint":"bad.v:1: a port without a direction, or a direction for a name that is no port\n    module t(a); input a; output y; endmodule\n  help: declare it, or list it among the ports"},"status":1}
  tdelay: netlist fault 15 PortUndeclared at line 1
  [1]

It is an option of each command, once, without a value, and stands after its name. After `--` it is none.

  $ tdelay --json info one.v 2> said; head -1 said
  error: unexpected argument '--json' found
  $ tdelay info one.v --json --json 2> said; head -1 said
  error: the argument '--json' cannot be used multiple times
  $ tdelay info one.v --json=yes 2> said; head -1 said
  error: unexpected value 'yes' for '--json' found; no more were expected
  $ tdelay info one.v -- --json 2> said; head -1 said
  error: unexpected argument '--json' found
  $ tdelay info -- --json
  tdelay: cannot read --json
  [5]
  $ tdelay info --json -- one.v
  {"proved":true,"command":"info","file":"one.v","question":{"default":{"rise":1,"fall":1},"output":[]},"module":"one","unit":"1 ns","inputs":0,"outputs":1,"gates":1,"defaulted":0,"depth":1,"delay":{"least":3,"greatest":3},"output":[{"index":0,"name":"y"}]}
