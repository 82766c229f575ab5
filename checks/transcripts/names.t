Options that say something of inputs by their names. They are replaced by options by place before the command runs.

  $ cat > bus.v <<'END'
  > module t(v, a, \e+ , y);
  > input [3:0] v;
  > input a, \e+ ;
  > output y;
  > and #2 g(w, v[3], v[2], v[1], v[0], a);
  > or #1 h(y, w, \e+ );
  > endmodule
  > END
  $ cat > up.v <<'END'
  > module t(v, y);
  > input [0:3] v;
  > output y;
  > and #2 g(y, v[0], v[1], v[2], v[3]);
  > endmodule
  > END
  $ cat > none.v <<'END'
  > module t(y);
  > output y;
  > buf #1 g(y, 1'b1);
  > endmodule
  > END
  $ cat > pinned.sh <<'END'
  > # The lines of a certificate that say which pairs it is about, and when inputs change.
  > tdelay worst "$@" --cert pinned.cert > /dev/null
  > grep -E '^(first|second|hold|at) ' pinned.cert
  > END
  $ tdelay info bus.v | grep input
  inputs 6
  input 0 v[3]
  input 1 v[2]
  input 2 v[1]
  input 3 v[0]
  input 4 a
  input 5 \e+

A pin is a trit of both patterns; `.` leaves the input free.

  $ bash pinned.sh bus.v --pin a=1
  first ....1.
  second ....1.
  hold ......
  $ bash pinned.sh bus.v --pin=a=0 --pin 'v[2]=1' --pin '\e+=0'
  first .1..00
  second .1..00
  hold ......
  $ bash pinned.sh bus.v --pin a=. --pin 'v[0]=1'
  first ...1..
  second ...1..
  hold ......
  $ bash pinned.sh bus.v --pin a=1 --pin a=1
  first ....1.
  second ....1.
  hold ......
  $ tdelay worst bus.v --pin a=1 --pin '\e+=0' --pin v=14
  unit 1 ns
  defaulted 0
  exact 0
  from 111010
  to 111010
  nodes 1
  $ tdelay bound bus.v --pin a=0 --pin '\e+=0'
  unit 1 ns
  defaulted 0
  a 0
  t 0
  m 0
  $ tdelay bound bus.v --first 11110. --second 11110.
  unit 1 ns
  defaulted 0
  a 1
  t none
  m 1
  $ tdelay parts bus.v --parts 2 --pin a=1 --pin v=15
  --first 11111. --second 11111.

Of a vector the value is a number for its bits: the left one is the most significant, whichever way its range goes.

  $ bash pinned.sh bus.v --pin v=8
  first 1000..
  second 1000..
  hold ......
  $ bash pinned.sh up.v --pin v=8
  first 1000
  second 1000
  hold ....
  $ bash pinned.sh bus.v --pin v="4'hA"
  first 1010..
  second 1010..
  hold ......
  $ bash pinned.sh bus.v --pin v="4'b01_01"
  first 0101..
  second 0101..
  hold ......
  $ bash pinned.sh bus.v --pin v="'o17"
  first 1111..
  second 1111..
  hold ......
  $ bash pinned.sh bus.v --pin v="4'D9"
  first 1001..
  second 1001..
  hold ......
  $ bash pinned.sh bus.v --pin v=.  --pin a="1'b1"
  first ....1.
  second ....1.
  hold ......
  $ tdelay worst bus.v --pin v=16
  tdelay: bad pin v=16
  [2]
  $ tdelay worst bus.v --pin v="5'd3"
  tdelay: bad pin v=5'd3
  [2]
  $ tdelay worst bus.v --pin v="4'b2"
  tdelay: bad pin v=4'b2
  [2]
  $ tdelay worst bus.v --pin v="4'"
  tdelay: bad pin v=4'
  [2]
  $ tdelay worst bus.v --pin v="4'x1"
  tdelay: bad pin v=4'x1
  [2]
  $ tdelay worst bus.v --pin v=-1
  tdelay: bad pin v=-1
  [2]
  $ tdelay worst bus.v --pin v=99999999999999999999
  tdelay: bad pin v=99999999999999999999
  [2]
  $ tdelay worst bus.v --pin a=2
  tdelay: bad pin a=2
  [2]
  $ tdelay worst bus.v --pin a=x
  tdelay: bad pin a=x
  [2]

An input that is held, and a vector of them.

  $ bash pinned.sh bus.v --hold-input a
  first ......
  second ......
  hold ....=.
  $ bash pinned.sh bus.v --hold-input v --hold-input '\e+'
  first ......
  second ......
  hold ====.=
  $ bash pinned.sh bus.v --hold ....=. --hold-input 'v[1]'
  first ......
  second ......
  hold ..=.=.

They are merged with options by place.

  $ bash pinned.sh bus.v --pin a=1 --first 0..... --second .1....
  first 0...1.
  second .1..1.
  hold ......
  $ bash pinned.sh bus.v --first=1....0 --pin v=15
  first 1111.0
  second 1111..
  hold ......
  $ tdelay worst bus.v --pin a=1 --first ....0.
  tdelay: pin a=1: another argument differs for input a
  [2]
  $ tdelay worst bus.v --pin a=1 --second ....0.
  tdelay: pin a=1: another argument differs for input a
  [2]
  $ tdelay worst bus.v --pin a=1 --pin a=0
  tdelay: pin a=0: another argument differs for input a
  [2]
  $ tdelay worst bus.v --pin v=0 --pin 'v[1]=1'
  tdelay: pin v[1]=1: another argument differs for input v[1]
  [2]
  $ tdelay worst bus.v --pin 'v[1]=1' --pin v=0
  tdelay: pin v=0: another argument differs for input v[1]
  [2]

Moments by name; the others are 0.

  $ tdelay sim bus.v 011110 111110 --at v[3]=3
  unit 1 ns
  defaulted 0
  last y 6
  time 6
  $ tdelay sim bus.v 011110 111110 --at 3,0,0,0,0,0
  unit 1 ns
  defaulted 0
  last y 6
  time 6
  $ tdelay path bus.v 011110 111110 --at=v=7 | tail -3
  change 7 v[3] 0 1 input
  change 9 w 0 1 and 2
  change 10 y 0 1 or 1
  $ bash pinned.sh bus.v --at a=5 --at v=2
  first ......
  second ......
  hold ......
  at 2 2 2 2 5 0
  $ tdelay bound bus.v --at a=1000000000 | tail -3
  a 1000000003
  t none
  m 1000000003
  $ tdelay parts bus.v --parts 1 --at a=1
  --first ...... --second ...... --at 0,0,0,0,1,0
  $ tdelay worst bus.v --at a=1 --at a=2
  tdelay: time a=2: another argument differs for input a
  [2]
  $ tdelay worst bus.v --at a=1 --at 0,0,0,0,0,0
  tdelay: --at by name and by place
  [2]
  $ tdelay worst bus.v --at a=1000000001
  tdelay: bad time a=1000000001
  [2]
  $ tdelay worst bus.v --at a=
  tdelay: bad time a=
  [2]
  $ tdelay worst bus.v --at 0,0,0,0,0,0 --at 0,0,0,0,0,1
  error: the argument '--at <TIMES>' cannot be used multiple times
  
  Usage: tdelay worst [OPTIONS] <FILE>
  
  For more information, try '--help'.
  [2]

`join` takes the names of the whole question.

  $ tdelay worst bus.v --pin a=1 --pin 'v[3]=0' --cert 0.cert > /dev/null
  $ tdelay worst bus.v --pin a=1 --pin 'v[3]=1' --cert 1.cert > /dev/null
  $ tdelay join bus.v 0.cert 1.cert --pin a=1
  tdelay: no part for --first 0...1. --second 1...1.
  [4]
  $ tdelay worst bus.v --pin a=1 --first 0..... --second 1..... --cert 2.cert > /dev/null
  $ tdelay worst bus.v --pin a=1 --first 1..... --second 0..... --cert 3.cert > /dev/null
  $ tdelay join bus.v 0.cert 1.cert 2.cert 3.cert --pin a=1 --cert all.cert && tdelay check bus.v all.cert
  unit 1 ns
  defaulted 0
  exact 3
  from 100010
  to 111110
  nodes 55
  first ....1.
  second ....1.
  hold ......
  flips 6
  accepted 3
  first ....1.
  second ....1.
  hold ......
  flips 6

  $ tdelay worst bus.v --pin a=1 --hold-input 'v[3]' --at a=2 --cert held.cert > /dev/null
  $ tdelay join bus.v held.cert --pin a=1 --hold-input 'v[3]' --at a=2
  unit 1 ns
  defaulted 0
  exact 3
  from 100010
  to 111110
  nodes 23
  first ....1.
  second ....1.
  hold =.....
  flips 6
  at 0 0 0 0 2 0

Names that no input has, and words that are none.

  $ tdelay worst bus.v --pin q=1
  tdelay: no input q
  [2]
  $ tdelay worst bus.v --pin y=1
  tdelay: no input y
  [2]
  $ tdelay worst bus.v --pin 'v[4]=1'
  tdelay: no input v[4]
  [2]
  $ tdelay worst bus.v --hold-input w
  tdelay: no input w
  [2]
  $ tdelay worst bus.v --at q=1
  tdelay: no input q
  [2]
  $ tdelay worst bus.v --pin a
  tdelay: bad pin a
  [2]
  $ tdelay worst bus.v --hold-input a=1
  tdelay: no input a=1
  [2]
  $ tdelay worst none.v --pin a=1
  tdelay: no input a
  [2]
  $ tdelay worst none.v --first none --hold-input a
  tdelay: no input a
  [2]

What else is wrong with the words or the netlist is reported as without them.

  $ tdelay worst nowhere.v --pin a=1
  tdelay: cannot read nowhere.v
  [5]
  $ printf 'module t(a);' > open.v; tdelay worst open.v --pin a=1
  tdelay: netlist fault 2 UnexpectedEnd at line 1
  [1]
  $ tdelay worst bus.v --pin a=1 --first 0
  tdelay: bad vector first
  [2]
  $ tdelay worst bus.v --hold-input a --hold 0
  tdelay: bad vector hold
  [2]
  $ tdelay worst bus.v --pin a=1 --first ...... --first ......
  error: the argument '--first <TRITS>' cannot be used multiple times
  
  Usage: tdelay worst [OPTIONS] <FILE>
  
  For more information, try '--help'.
  [2]
  $ tdelay worst bus.v --pin a=1 --budget x
  error: invalid value 'x' for '--budget <N>': invalid digit found in string
  
  For more information, try '--help'.
  [2]
  $ tdelay worst bus.v --pin
  error: a value is required for '--pin <NAME=VALUE>' but none was supplied
  
  For more information, try '--help'.
  [2]
  $ tdelay worst --pin a=1
  error: the following required arguments were not provided:
    <FILE>
  
  Usage: tdelay worst <FILE>
  
  For more information, try '--help'.
  [2]
  $ tdelay worst bus.v --pin a=1 -- x.v 2>&1 | head -1
  error: unexpected argument 'x.v' found
  $ tdelay worst --pin a=1 -- bus.v | tail -4
  exact 3
  from 000010
  to 111110
  nodes 21

Commands that don't take them refuse them as any option.

  $ tdelay sim bus.v 000000 111111 --pin a=1
  error: unexpected argument '--pin' found
  
    help: bound, worst, parts and join take --pin, sim doesn't
  
  Usage: tdelay sim <FILE> <FROM> <TO>
  
  For more information, try '--help'.
  [2]
  $ tdelay bound bus.v --keep a=11
  error: unexpected argument '--keep' found
  
    help: worst, parts and join take --keep, bound doesn't
  
  Usage: tdelay bound <FILE>
  
  For more information, try '--help'.
  [2]
  $ tdelay check bus.v all.cert --pin a=1
  error: unexpected argument '--pin' found
  
    help: bound, worst, parts and join take --pin, check doesn't
  
  Usage: tdelay check <FILE> <CERT>
  
  For more information, try '--help'.
  [2]
  $ tdelay info bus.v --hold-input a
  error: unexpected argument '--hold-input' found
  
    help: bound, worst, parts and join take --hold-input, info doesn't
  
  Usage: tdelay info <FILE>
  
  For more information, try '--help'.
  [2]
  $ tdelay --pin a=1 worst bus.v 2>&1 | head -1
  error: unexpected argument '--pin' found

A netlist from a stream is read once.

  $ tdelay worst - --pin a=1 < bus.v
  unit 1 ns
  defaulted 0
  exact 3
  from 000010
  to 111110
  nodes 21
  $ tdelay worst stdin --at a=1 < bus.v
  unit 1 ns
  defaulted 0
  exact 4
  from 000000
  to 111110
  nodes 25
  $ tdelay worst /dev/stdin --pin a=1 < <(cat bus.v)
  unit 1 ns
  defaulted 0
  exact 3
  from 000010
  to 111110
  nodes 21
  $ tdelay worst <(cat bus.v) --hold-input a
  unit 1 ns
  defaulted 0
  exact 3
  from 000010
  to 111110
  nodes 27
  $ tdelay worst /dev/stdin --pin a=1 < bus.v | tail -4
  exact 3
  from 000010
  to 111110
  nodes 21

Hints say which inputs there are, and what a word has to be.

  $ tdelay worst bus.v --pin q=1 --hints
  tdelay: no input q
  there are the inputs v[3] v[2] v[1] v[0] a \e+
    help: give one of these, or a vector's name for all of its bits
  [2]
  $ tdelay worst bus.v --pin 'v[4]=1' --hints
  tdelay: no input v[4]
  there are the inputs v[3] v[2] v[1] v[0] a \e+
    help: v[3] has nearly that name
  [2]
  $ tdelay worst bus.v --pin A=1 --hints
  tdelay: no input A
  there are the inputs v[3] v[2] v[1] v[0] a \e+
    help: a has nearly that name
  [2]
  $ tdelay worst bus.v --pin a=2 --hints
  tdelay: bad pin a=2
  --pin has a name, = and a value: 0, 1 or . for one input, a number for a vector
    help: a number fits the vector's bits, as 10 or 8'hff, and is below 2 to the power of 64
  [2]
  $ tdelay worst bus.v --at a=x --hints
  tdelay: bad time a=x
  --at has a name, = and a whole number of steps, at most 1000000000
    help: write it as a=3, once for each input
  [2]
  $ tdelay worst bus.v --pin a=1 --pin a=0 --hints
  tdelay: pin a=0: another argument differs for input a
  two arguments give one input different values
    help: remove one of them, or make them equal
  [2]
  $ tdelay worst bus.v --at a=1 --at 0,0,0,0,0,0 --hints
  tdelay: --at by name and by place
  --at has a number for each input by place, or NAME=T for one by name
    help: give all times in one of the two forms
  [2]
  $ tdelay worst bus.v --pin a=1 --first 0 --hints
  tdelay: bad vector first
  --first: 6 characters, one for each of v[3] v[2] v[1] v[0] a \e+; got 1
    help: write 0, 1 or . (free) for each, the first character for the first input
  [2]
