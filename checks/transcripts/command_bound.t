Bounds of all pairs: by arrival windows, by possible levels, and by both at once.

  $ cat > inverter.v <<'END'
  > module t(a, y);
  > input a;
  > output y;
  > not #(2,3) g(y,a);
  > endmodule
  > END
  $ cat > nor.v <<'END'
  > module t(a, y);
  > input a;
  > output y;
  > nor (y,a,a);
  > endmodule
  > END
  $ cat > reconvergent.v <<'END'
  > module t(a, b, y);
  > input a, b;
  > output y;
  > buf #1 p1(p,b); buf #1 p2(q,b); xor #3 g(y,a,p,q);
  > endmodule
  > END
  $ cat > none.v <<'END'
  > module t;
  > endmodule
  > END
  $ tdelay bound inverter.v
  unit 1 ns
  defaulted 0
  a 3
  t none
  m 3
  $ tdelay bound nor.v
  unit 1 ns
  defaulted 1
  a 1
  t none
  m 1
  $ tdelay bound reconvergent.v
  unit 1 ns
  defaulted 0
  a 4
  t none
  m 4
  $ tdelay bound none.v
  unit 1 ns
  defaulted 0
  a 0
  t 0
  m 0

Bounds of cubes by both options, and by one alone.

  $ cat > hidden.v <<'END'
  > module t(a, c, y);
  > input a, c;
  > output y;
  > buf #1 g1(d,a); or #1 g2(m,c,d); not #3 g3(k,a); and #2 g4(y,m,k);
  > endmodule
  > END
  $ cat > lost.v <<'END'
  > module t(a, y);
  > input a;
  > output y;
  > not #1 n(b,a); and #2 g(y,a,b);
  > endmodule
  > END
  $ cat > late.v <<'END'
  > module t(a, y);
  > input a;
  > output y;
  > not #1 n(b,a); and #(1,3) g(y,a,b);
  > endmodule
  > END
  $ cat > slow.v <<'END'
  > module t(a, b, y);
  > input a, b;
  > output y;
  > buf #4 s(t,a); or #1 g(y,b,t);
  > endmodule
  > END
  $ tdelay bound hidden.v --first 00 --second 1.
  unit 1 ns
  defaulted 0
  a 5
  t 5
  m 5
  $ tdelay bound lost.v --first 0 --second 1
  unit 1 ns
  defaulted 0
  a 0
  t 0
  m 0
  $ tdelay bound late.v --first 0 --second 1
  unit 1 ns
  defaulted 0
  a 4
  t 4
  m 4
  $ tdelay bound reconvergent.v --first 00 --second 11
  unit 1 ns
  defaulted 0
  a 4
  t 3
  m 3
  $ tdelay bound slow.v --first .1 --second .1
  unit 1 ns
  defaulted 0
  a 0
  t 0
  m 0
  $ tdelay bound none.v --first none --second none
  unit 1 ns
  defaulted 0
  a 0
  t 0
  m 0
  $ tdelay bound slow.v --second .1
  unit 1 ns
  defaulted 0
  a 1
  t 1
  m 1

An input that changes at 7.

  $ cat > parted.v <<'END'
  > module t(a, y);
  > input a;
  > output y;
  > not #1 g(b,a); and #1 h(y,a,b);
  > endmodule
  > END
  $ tdelay bound parted.v --first 0 --second 1 --at 7
  unit 1 ns
  defaulted 0
  a 9
  t 9
  m 9

By edges: each edge of the inverter has its own delay, and where its input can only fall, the output can only rise, which takes 2.

  $ tdelay bound inverter.v --edges
  unit 1 ns
  defaulted 0
  a 3
  t none
  m 3
  e 3
  n 3
  $ tdelay bound inverter.v --edges --first 1
  unit 1 ns
  defaulted 0
  a 3
  t none
  m 3
  e 2
  n 2

b changes at 0 and p and q follow at 1, so that y may change at 3 + 1 by edges; the two changes cancel each other.

  $ tdelay bound reconvergent.v --edges --first 00 --second 11
  unit 1 ns
  defaulted 0
  a 4
  t 3
  m 3
  e 4
  n 3

A pulse of one moment may rise at 1 and fall 3 behind it.

  $ tdelay bound late.v --edges --first 0 --second 1
  unit 1 ns
  defaulted 0
  a 4
  t 4
  m 4
  e 4
  n 4
  $ tdelay bound none.v --edges
  unit 1 ns
  defaulted 0
  a 0
  t 0
  m 0
  e 0
  n 0

The netlist is judged first, then the first vector, the second one, and the moments.

  $ cat > looped.v <<'END'
  > module t(a, q);
  > input a;
  > output q;
  > nand #1 g(q,a,q);
  > endmodule
  > END
  $ tdelay bound inverter.v --first 00 --second 00
  tdelay: bad vector first
  [2]
  $ tdelay bound inverter.v --first . --second x
  tdelay: bad vector second
  [2]
  $ tdelay bound none.v --first '' --second none
  tdelay: bad vector first
  [2]
  $ tdelay bound looped.v --first 00 --second 00
  tdelay: circuit fault 1 Loop on q
  [1]
  $ tdelay bound slow.v --at x --second x
  tdelay: bad vector second
  [2]
  $ tdelay bound slow.v --at '0 1'
  tdelay: bad vector at
  [2]
