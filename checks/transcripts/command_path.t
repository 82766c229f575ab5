Why an output changes last when it does: by the gate of another delay, and from an input that changes later.

  $ cat > parted.v <<'END'
  > module t(a, y);
  > input a;
  > output y;
  > not #1 g(b,a); and #1 h(y,a,b);
  > endmodule
  > END
  $ cat > skew.v <<'END'
  > module t(a, b, y);
  > input a, b;
  > output y;
  > and #2 g(y,a,b);
  > endmodule
  > END
  $ tdelay path parted.v 0 1
  unit 1 ns
  defaulted 0
  change 0 a 0 1 input
  change 1 b 1 0 not 1
  change 2 y 1 0 and 1
  $ tdelay path skew.v 01 10 --at 0,2
  unit 1 ns
  defaulted 0
  change 2 b 1 0 input
  change 4 y 1 0 and 2
  $ tdelay path skew.v 01 10
  unit 1 ns
  defaulted 0
  time 0

An output that is named, which may be none and may never change. The vectors are judged first.

  $ tdelay path "$NETLISTS"/c17.v 01010 01110 --output N23
  unit 1 ns
  defaulted 6
  change 0 N3 0 1 input
  change 1 N11 1 0 nand 1
  change 2 N16 0 1 nand 1
  change 3 N23 1 0 nand 1
  $ tdelay path skew.v 01 10 --output y
  unit 1 ns
  defaulted 0
  last y never
  $ tdelay path skew.v 01 10 --output a
  tdelay: no output of this name
  [2]
  $ tdelay path skew.v 01 1 --output a
  tdelay: bad vector TO
  [2]

What is in a netlist: its size, depth and delays, and its nets in order.

  $ tdelay info "$NETLISTS"/c17.v --default-fall 3
  module c17
  unit 1 ns
  inputs 5
  outputs 2
  gates 6
  defaulted 6
  depth 3
  delay 1 3
  input 0 N1
  input 1 N2
  input 2 N3
  input 3 N6
  input 4 N7
  output 0 N22
  output 1 N23
  $ tdelay info skew.v
  module t
  unit 1 ns
  inputs 2
  outputs 1
  gates 1
  defaulted 0
  depth 1
  delay 2 2
  input 0 a
  input 1 b
  output 0 y
