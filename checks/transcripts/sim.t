A run of an inverter with rise delay 2 and fall delay 3.

  $ cat > inverter.v <<'END'
  > module t(a, y);
  > input a;
  > output y;
  > not #(2,3) g(y,a);
  > endmodule
  > END
  $ tdelay sim inverter.v 0 1
  unit 1 ns
  defaulted 0
  last y 3
  time 3

The other way round, to an unknown level, and without a change.

  $ tdelay sim inverter.v 1 0
  unit 1 ns
  defaulted 0
  last y 2
  time 2
  $ tdelay sim inverter.v 0 x
  unit 1 ns
  defaulted 0
  last y 2
  time 2
  $ tdelay sim inverter.v 0 0
  unit 1 ns
  defaulted 0
  last y never
  time 0

A gate without a delay takes a step, or those of the options, on each edge its own.

  $ cat > nor.v <<'END'
  > module t(a, y);
  > input a;
  > output y;
  > nor (y,a,a);
  > endmodule
  > END
  $ tdelay sim nor.v 0 1
  unit 1 ns
  defaulted 1
  last y 1
  time 1
  $ tdelay sim --default-rise 20 --default-fall 1000000000 nor.v 1 0
  unit 1 ns
  defaulted 1
  last y 20
  time 20
  $ tdelay sim --default-fall=1000000000 nor.v 0 1
  unit 1 ns
  defaulted 1
  last y 1000000000
  time 1000000000
  $ tdelay sim "$NETLISTS"/c17.v 01010 01110
  unit 1 ns
  defaulted 6
  last N22 3
  last N23 3
  time 3

A pulse of one step: up at 1 and down at 2 behind an `and` of delay 1, lost behind one of delay 2, and up at 1 and down at 4 where the
fall takes 3.

  $ cat > parted.v <<'END'
  > module t(a, y);
  > input a;
  > output y;
  > not #1 g(b,a); and #1 h(y,a,b);
  > endmodule
  > END
  $ cat > lost.v <<'END'
  > module t(a, y);
  > input a;
  > output y;
  > not #1 n(b,a); and #2 g(y,a,b);
  > endmodule
  > END
  $ cat > late.v <<'END'
  > module t(a, y);
  > input a;
  > output y;
  > not #1 n(b,a); and #(1,3) g(y,a,b);
  > endmodule
  > END
  $ tdelay sim parted.v 0 1
  unit 1 ns
  defaulted 0
  last y 2
  time 2
  $ tdelay sim lost.v 0 1
  unit 1 ns
  defaulted 0
  last y never
  time 0
  $ tdelay sim late.v 0 1
  unit 1 ns
  defaulted 0
  last y 4
  time 4

Two inputs of a gate that change together.

  $ cat > reconvergent.v <<'END'
  > module t(a, b, y);
  > input a, b;
  > output y;
  > buf #1 p1(p,b); buf #1 p2(q,b); xor #3 g(y,a,p,q);
  > endmodule
  > END
  $ tdelay sim reconvergent.v 00 11
  unit 1 ns
  defaulted 0
  last y 3
  time 3

A pulse that an unknown input hides.

  $ cat > hidden.v <<'END'
  > module t(a, c, y);
  > input a, c;
  > output y;
  > buf #1 g1(d,a); or #1 g2(m,c,d); not #3 g3(k,a); and #2 g4(y,m,k);
  > endmodule
  > END
  $ tdelay sim hidden.v 00 1x
  unit 1 ns
  defaulted 0
  last y never
  time 0
  $ tdelay sim hidden.v 00 11
  unit 1 ns
  defaulted 0
  last y 5
  time 5
  $ tdelay sim hidden.v 00 10
  unit 1 ns
  defaulted 0
  last y never
  time 0

A gate with two outputs, a netlist without an input, and one with an input alone.

  $ cat > both.v <<'END'
  > module t(a, y, z);
  > input a;
  > output y, z;
  > buf #1 g(y,z,a);
  > endmodule
  > END
  $ cat > none.v <<'END'
  > module t;
  > endmodule
  > END
  $ cat > attribute.v <<'END'
  > module t(a);
  > (* x *) input a;
  > endmodule
  > END
  $ tdelay sim both.v 0 1
  unit 1 ns
  defaulted 0
  last y 1
  last z 1
  time 1
  $ tdelay sim none.v none none
  unit 1 ns
  defaulted 0
  time 0
  $ tdelay sim attribute.v 0 1
  unit 1 ns
  defaulted 0
  time 0

Inputs that change at moments of their own. Where b falls one step behind the rise of a, the pulse is shorter than the delay; two steps
behind, it passes.

  $ cat > skew.v <<'END'
  > module t(a, b, y);
  > input a, b;
  > output y;
  > and #2 g(y,a,b);
  > endmodule
  > END
  $ tdelay sim skew.v 01 10
  unit 1 ns
  defaulted 0
  last y never
  time 0
  $ tdelay sim skew.v 01 10 --at 0,1
  unit 1 ns
  defaulted 0
  last y never
  time 0
  $ tdelay sim skew.v 01 10 --at 0,2
  unit 1 ns
  defaulted 0
  last y 4
  time 4

Words that give no vector, and words that give no moments: too few, too many, no number, too late, and those of no inputs.

  $ tdelay sim both.v 00 11
  tdelay: bad vector FROM
  [2]
  $ tdelay sim both.v 0 2
  tdelay: bad vector TO
  [2]
  $ tdelay sim none.v none 0
  tdelay: bad vector TO
  [2]
  $ for at in 1 0,1,2 0,x 0,1000000001 none 0, ""; do tdelay sim skew.v 01 10 --at "$at"; echo $?; done
  2
  2
  2
  2
  2
  2
  2
  tdelay: bad vector at
  tdelay: bad vector at
  tdelay: bad vector at
  tdelay: bad vector at
  tdelay: bad vector at
  tdelay: bad vector at
  tdelay: bad vector at

Moments are told last.

  $ tdelay sim skew.v 01 1 --at x
  tdelay: bad vector TO
  [2]

All this goes to standard error, and nothing to standard output.

  $ tdelay sim both.v 0 2 2> told
  [2]

Gates without a delay take the default ones.

  $ tdelay sim "$NETLISTS"/c17.v 01010 01110 --default-rise 2 --default-fall 2
  unit 1 ns
  defaulted 6
  last N22 6
  last N23 6
  time 6
