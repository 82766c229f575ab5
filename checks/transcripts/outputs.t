One output alone, and which output changes last.

  $ cat > two.v <<'END'
  > module two(a, b, y, z);
  > input a, b;
  > output y, z;
  > and #2 (y, a, b);
  > not #5 (z, a);
  > endmodule
  > END

Which output changes last: the line is there where it is asked for and an output changes.

  $ tdelay sim two.v 00 11 --outputs
  unit 1 ns
  defaulted 0
  last y 2
  last z 5
  time 5
  output z
  $ tdelay sim two.v 00 01 --outputs
  unit 1 ns
  defaulted 0
  last y never
  last z never
  time 0
  $ tdelay worst two.v --outputs --path
  unit 1 ns
  defaulted 0
  exact 5
  from 00
  to 11
  nodes 1
  output z
  change 0 a 0 1 input
  change 5 z 1 0 not 5
  $ tdelay sim two.v 00 11 --outputs --json
  {"proved":true,"command":"sim","file":"two.v","question":{"default":{"rise":1,"fall":1},"output":[],"from":"00","to":"11","named":[]},"unit":"1 ns","defaulted":0,"last":[{"output":"y","time":2},{"output":"z","time":5}],"time":5,"output":[{"name":"z"}]}

Which output has the bound m: the line comes after all others, and names the first of several. It isn't there without outputs.

  $ tdelay bound two.v --outputs
  unit 1 ns
  defaulted 0
  a 5
  t none
  m 5
  output z
  $ tdelay bound two.v --outputs --edges --first 1. --second 1.
  unit 1 ns
  defaulted 0
  a 2
  t none
  m 2
  e 2
  n 2
  output y
  $ tdelay bound two.v --outputs --first 00 --second 00
  unit 1 ns
  defaulted 0
  a 0
  t 0
  m 0
  output y
  $ tdelay bound two.v --outputs --output y
  unit 1 ns
  defaulted 0
  a 2
  t none
  m 2
  output y
  $ tdelay bound two.v --outputs --json
  {"proved":true,"command":"bound","file":"two.v","question":{"default":{"rise":1,"fall":1},"output":[],"named":[]},"unit":"1 ns","defaulted":0,"a":5,"t":null,"m":5,"output":[{"name":"z"}]}
  $ cat > closed.v <<'END'
  > module closed(a);
  > input a;
  > endmodule
  > END
  $ tdelay bound closed.v --outputs
  unit 1 ns
  defaulted 0
  a 0
  t 0
  m 0
  $ tdelay bound closed.v --outputs --json
  {"proved":true,"command":"bound","file":"closed.v","question":{"default":{"rise":1,"fall":1},"output":[],"named":[]},"unit":"1 ns","defaulted":0,"a":0,"t":0,"m":0}
  $ tdelay bound two.v --outputs=z 2>&1 | head -1
  error: unexpected value 'z' for '--outputs' found; no more were expected
  $ tdelay path two.v 00 11 --outputs 2>&1 | head -1
  error: unexpected argument '--outputs' found

The netlist with one output: bounds, a search, its certificate, and parts of it.

  $ tdelay bound two.v --output y
  unit 1 ns
  defaulted 0
  a 2
  t none
  m 2
  $ tdelay worst two.v --output y --outputs --cert y.cert
  unit 1 ns
  defaulted 0
  exact 2
  from 00
  to 11
  nodes 1
  output y
  $ tdelay check two.v y.cert --output y
  accepted 2
  output 0
  $ tdelay check two.v y.cert
  accepted 2
  output 0
  $ tdelay check two.v y.cert --output z
  refused 11 OtherQuestion line 4
  [4]
  $ tdelay parts two.v --parts 2 --output y
  --first 0. --second .. --output y
  --first 1. --second .. --output y
  $ tdelay worst two.v --first 0. --second .. --output y --cert 1.cert > said
  $ tdelay worst two.v --first 1. --second .. --output y --cert 2.cert > said
  $ tdelay join two.v 1.cert 2.cert --check --output y --cert all.cert
  unit 1 ns
  defaulted 0
  exact 2
  from 00
  to 11
  nodes 7
  output 0
  $ tdelay check two.v all.cert --output y
  accepted 2
  output 0
  $ tdelay join two.v 1.cert 2.cert --check
  tdelay: 1.cert: refused 11 OtherQuestion line 4
  [4]

A name that no output has, after the faults of the text and before those of other words.

  $ tdelay bound two.v --output a
  tdelay: no output of this name
  [2]
  $ tdelay worst two.v --output a --first 0
  tdelay: no output of this name
  [2]
  $ tdelay check two.v y.cert --output nope
  tdelay: no output of this name
  [2]
  $ tdelay join two.v 1.cert --output nope
  tdelay: no output of this name
  [2]
  $ tdelay parts two.v --parts 2 --output ''
  tdelay: no output of this name
  [2]
  $ tdelay bound two.v --output a --hints
  tdelay: no output of this name
  --output: no output has the name a; there are y z
    help: give one of these; a bit of a vector is a[3]
  [2]
  $ tdelay sim two.v 00 11 --output y 2>&1 | head -1
  error: unexpected argument '--output' found

A bit of a vector, and an escaped name with a bit.

  $ cat > wide.v <<'END'
  > module wide(a, y, \z+ );
  > input a;
  > output [1:0] y;
  > output [1:0] \z+ ;
  > buf #1 (y[0], a);
  > buf #2 (y[1], a);
  > buf #3 (\z+ [0], a);
  > buf #4 (\z+ [1], a);
  > endmodule
  > END
  $ tdelay bound wide.v --output 'y[1]'
  unit 1 ns
  defaulted 0
  a 2
  t none
  m 2
  $ tdelay bound wide.v --output '\z+ [0]'
  unit 1 ns
  defaulted 0
  a 3
  t none
  m 3
  $ tdelay worst wide.v --outputs
  unit 1 ns
  defaulted 0
  exact 4
  from 0
  to 1
  nodes 1
  output \z+ [1]

The end of a search by the clock.

  $ tdelay worst $NETLISTS/mult_8.v --strategy least --budget 10000000 --seconds 1 > said; echo $?
  3
  $ cut -d ' ' -f 1 said | head -4; grep cause said
  unit
  defaulted
  between
  cause
  cause time
  $ tdelay worst $NETLISTS/mult_8.v --strategy least --budget 1000 --seconds 60 | grep cause
  cause budget
  $ tdelay worst two.v --seconds 60
  unit 1 ns
  defaulted 0
  exact 5
  from 00
  to 11
  nodes 1
  $ tdelay worst two.v --seconds 18446744073709551615 --output y
  unit 1 ns
  defaulted 0
  exact 2
  from 00
  to 11
  nodes 1
  $ tdelay worst two.v --seconds -1 2>&1 | head -1
  error: unexpected argument '-1' found
  $ tdelay worst two.v --seconds 1.5 2>&1 | head -1
  error: invalid value '1.5' for '--seconds <N>': invalid digit found in string
