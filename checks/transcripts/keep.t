Conditions on the settled levels of nets, by name (`--keep`): what is asked, what is answered, and which words say none.

  $ cp "$NETLISTS/hazard.v" .

The latest rise and fall of `y`, whether it can glitch at either level, and both.

  $ tdelay worst hazard.v --keep y=01
  unit 1 ns
  defaulted 0
  exact 5
  from 100
  to 001
  nodes 1
  $ tdelay worst hazard.v --keep y=10
  unit 1 ns
  defaulted 0
  exact 5
  from 001
  to 101
  nodes 1
  $ tdelay worst hazard.v --keep y=00
  unit 1 ns
  defaulted 0
  exact 5
  from 000
  to 101
  nodes 1
  $ tdelay worst hazard.v --keep y=11 --path --outputs
  unit 1 ns
  defaulted 0
  exact 5
  from 110
  to 001
  nodes 1
  output y
  change 0 s 1 0 input
  change 3 n 0 1 not 3
  change 4 q 0 1 and 1
  change 5 y 0 1 or 1
  $ tdelay worst hazard.v --keep y==
  unit 1 ns
  defaulted 0
  exact 5
  from 000
  to 101
  nodes 1

With one input that changes no other than the fall of `s` makes it glitch; where `s` stays nothing does.

  $ tdelay worst hazard.v --keep y=11 --flips 1
  unit 1 ns
  defaulted 0
  exact 5
  from 111
  to 011
  nodes 1
  $ tdelay worst hazard.v --keep y=11 --keep s==
  unit 1 ns
  defaulted 0
  exact 0
  from 110
  to 111
  nodes 1

Conditions on inputs, on nets inside, several on one net, in any order and more than once; a level may be left open.

  $ tdelay worst hazard.v --keep s=1. --keep a=.0 --keep n==
  unit 1 ns
  defaulted 0
  exact 2
  from 111
  to 101
  nodes 1
  $ tdelay worst hazard.v --keep y=.1 --keep y=0. --keep=y=.1 --cert rise
  unit 1 ns
  defaulted 0
  exact 5
  from 100
  to 001
  nodes 1
  $ tdelay check hazard.v rise
  accepted 5
  keep 8 .1 8 0.
  $ tdelay worst hazard.v --pin a=1 --keep y=01 --hold-input b
  unit 1 ns
  defaulted 0
  exact 2
  from 010
  to 110
  nodes 1

No pair keeps conditions that contradict each other, or what the netlist settles at. The certificate shows it.

  $ tdelay worst hazard.v --keep y=0. --keep y=1. --cert none --vcd waves --path
  unit 1 ns
  defaulted 0
  none
  nodes 1
  [1]
  $ [ -e waves ]
  [1]
  $ tdelay check hazard.v none
  accepted none
  keep 8 0. 8 1.
  $ tdelay worst hazard.v --keep p=11 --keep q=11
  unit 1 ns
  defaulted 0
  none
  nodes 1
  [1]
  $ tdelay worst hazard.v --keep y=0. --keep y=1. --json
  {"proved":true,"command":"worst","file":"hazard.v","question":{"default":{"rise":1,"fall":1},"output":[],"named":[{"option":"--keep","word":"y=0."},{"option":"--keep","word":"y=1."}]},"unit":"1 ns","defaulted":0,"none":true,"nodes":1}
  [1]

Where no pair is admitted whatever it keeps, that is said as without conditions.

  $ tdelay worst hazard.v --first 1.. --second 0.. --hold-input s --keep y=11
  tdelay: no admitted pair
  [1]

A net that a constant drives settles at one level.

  $ cat > constant.v <<'END'
  > module t (a, y);
  > input a;
  > output y;
  > buf #2 one (o, 1'b1);
  > and #3 both (y, a, o);
  > endmodule
  > END
  $ tdelay worst constant.v --keep o=11
  unit 1 ns
  defaulted 0
  exact 3
  from 0
  to 1
  nodes 1
  $ tdelay worst constant.v --keep o=.0
  unit 1 ns
  defaulted 0
  none
  nodes 1
  [1]

A search that is cut short before it has a pair knows an upper figure alone.

  $ tdelay worst hazard.v --keep y=11 --budget 0
  unit 1 ns
  defaulted 0
  between none 5
  cause budget
  [3]
  $ tdelay worst hazard.v --keep y=11 --budget 0 --json
  {"proved":true,"command":"worst","file":"hazard.v","question":{"default":{"rise":1,"fall":1},"output":[],"named":[{"option":"--keep","word":"y=11"}]},"unit":"1 ns","defaulted":0,"between":[null,5],"cause":"budget","units":0}
  [3]

Of each output by itself.

  $ tdelay worst "$NETLISTS/c17.v" --each --keep N22=11
  unit 1 ns
  defaulted 6
  each N22 exact 3 edges 3
  each N23 exact 3 edges 3
  $ tdelay worst "$NETLISTS/c17.v" --each --keep N22=11 --keep N10=00 --json
  {"proved":true,"command":"worst","file":"$NETLISTS/c17.v","question":{"default":{"rise":1,"fall":1},"output":[],"named":[{"option":"--keep","word":"N22=11"},{"option":"--keep","word":"N10=00"}]},"unit":"1 ns","defaulted":6,"each":[{"output":"N22","exact":0,"edges":3},{"output":"N23","exact":3,"edges":3}]}
  $ tdelay worst "$NETLISTS/c17.v" --each --keep N22=11 --budget 0
  unit 1 ns
  defaulted 6
  each N22 between none 3 edges 3
  each N23 between none 3 edges 3
  [3]

Parts take the conditions, and their certificates join into one of the question with them, and of no other.

  $ tdelay parts hazard.v --parts 2 --keep y=11
  --first 0.. --second ... --keep y=11
  --first 1.. --second ... --keep y=11
  $ tdelay parts hazard.v --parts 2 --keep y=11 | while read -r words; do tdelay worst hazard.v $words --cert part-$((count += 1)) > out; done
  $ tdelay join hazard.v part-1 part-2 --keep y=11 --cert whole
  unit 1 ns
  defaulted 0
  exact 5
  from 110
  to 011
  nodes 3
  keep 8 11
  $ tdelay check hazard.v whole
  accepted 5
  keep 8 11
  $ tdelay join hazard.v part-1 part-2
  tdelay: parts of another question: other conditions
  [4]
  $ tdelay join hazard.v part-1 part-2 --keep y=01
  tdelay: parts of another question: other conditions
  [4]

Words that say no condition, and names of no net. The first of them is told.

  $ for word in y y= y=1 y=.. y=12 y=111 =11 == y=1x ''; do tdelay worst hazard.v --keep "$word"; done
  tdelay: bad keep y
  tdelay: bad keep y=
  tdelay: bad keep y=1
  tdelay: bad keep y=..
  tdelay: bad keep y=12
  tdelay: bad keep y=111
  tdelay: bad keep =11
  tdelay: bad keep ==
  tdelay: bad keep y=1x
  tdelay: bad keep 
  [2]
  $ tdelay worst hazard.v --keep z=11 --keep y=..
  tdelay: no net z
  [2]
  $ tdelay worst hazard.v --keep z=11 --hints
  tdelay: no net z
  no input and no gate's output is printed so
    help: give the name as the netlist has it: a for a wire, a[2] for a bit of a vector
  [2]

A name may hold `=`.

  $ cat > escaped.v <<'END'
  > module t (\a=b , y);
  > input \a=b ;
  > output y;
  > not #2 n (y, \a=b );
  > endmodule
  > END
  $ tdelay worst escaped.v --keep '\a=b=01'
  unit 1 ns
  defaulted 0
  exact 2
  from 0
  to 1
  nodes 1

Trees of cubes know nothing of conditions, and other commands don't take them.

  $ tdelay worst hazard.v --keep y=11 --strategy least
  tdelay: --keep doesn't go together with --strategy least or lead: leave --strategy out
  [2]
  $ tdelay worst hazard.v --keep y=11 --strategy lead
  tdelay: --keep doesn't go together with --strategy least or lead: leave --strategy out
  [2]
  $ tdelay bound hazard.v --keep y=11 2>&1 | head -n 1
  error: unexpected argument '--keep' found
