Searches for the worst delay, each with a pair that has it and the number of the tree's nodes.

  $ cat > inverter.v <<'END'
  > module t(a, y);
  > input a;
  > output y;
  > not #(2,3) g(y,a);
  > endmodule
  > END
  $ cat > lost.v <<'END'
  > module t(a, y);
  > input a;
  > output y;
  > not #1 n(b,a); and #2 g(y,a,b);
  > endmodule
  > END
  $ cat > parted.v <<'END'
  > module t(a, y);
  > input a;
  > output y;
  > not #1 g(b,a); and #1 h(y,a,b);
  > endmodule
  > END
  $ cat > late.v <<'END'
  > module t(a, y);
  > input a;
  > output y;
  > not #1 n(b,a); and #(1,3) g(y,a,b);
  > endmodule
  > END
  $ cat > reconvergent.v <<'END'
  > module t(a, b, y);
  > input a, b;
  > output y;
  > buf #1 p1(p,b); buf #1 p2(q,b); xor #3 g(y,a,p,q);
  > endmodule
  > END
  $ cat > hidden.v <<'END'
  > module t(a, c, y);
  > input a, c;
  > output y;
  > buf #1 g1(d,a); or #1 g2(m,c,d); not #3 g3(k,a); and #2 g4(y,m,k);
  > endmodule
  > END
  $ cat > none.v <<'END'
  > module t;
  > endmodule
  > END
  $ tdelay worst inverter.v
  unit 1 ns
  defaulted 0
  exact 3
  from 0
  to 1
  nodes 1
  $ tdelay worst lost.v
  unit 1 ns
  defaulted 0
  exact 0
  from 0
  to 1
  nodes 7
  $ tdelay worst parted.v
  unit 1 ns
  defaulted 0
  exact 2
  from 0
  to 1
  nodes 1
  $ tdelay worst late.v
  unit 1 ns
  defaulted 0
  exact 4
  from 0
  to 1
  nodes 1
  $ tdelay worst reconvergent.v
  unit 1 ns
  defaulted 0
  exact 3
  from 00
  to 11
  nodes 31
  $ tdelay worst hidden.v
  unit 1 ns
  defaulted 0
  exact 5
  from 00
  to 11
  nodes 1
  $ tdelay worst none.v
  unit 1 ns
  defaulted 0
  exact 0
  from none
  to none
  nodes 1
  $ tdelay worst "$NETLISTS"/c17.v
  unit 1 ns
  defaulted 6
  exact 3
  from 00000
  to 11111
  nodes 1

A budget that is too small cuts a search short; it has no certificate then. Seven nodes suffice.

  $ tdelay worst lost.v --budget=1 --cert c
  unit 1 ns
  defaulted 0
  between 0 3
  cause budget
  from 0
  to 1
  nodes 1
  [3]
  $ tdelay worst lost.v --budget=0 --cert c
  unit 1 ns
  defaulted 0
  between 0 3
  cause budget
  from 0
  to 1
  nodes 0
  [3]
  $ ls
  hidden.v
  inverter.v
  late.v
  lost.v
  none.v
  parted.v
  reconvergent.v
  $ tdelay worst lost.v --budget=7 --cert c
  unit 1 ns
  defaulted 0
  exact 0
  from 0
  to 1
  nodes 7
  $ cat c
  tdelay-cert 1
  circuit 1 2
  time 0
  from 0
  to 1
  s 0
  s 1
  b a 0
  b a 0
  s 1
  b a 0
  b a 0

Its report is what goes to standard output, where its certificate would.

  $ tdelay worst lost.v --budget=1 --cert -
  unit 1 ns
  defaulted 0
  between 0 3
  cause budget
  from 0
  to 1
  nodes 1
  [3]

The worst delay of the pairs that two patterns allow, that keep the held inputs, and that differ at so many inputs at most. More flips
than there are inputs are any number of them.

  $ cat > slow.v <<'END'
  > module t(a, b, y);
  > input a, b;
  > output y;
  > buf #4 s(t,a); or #1 g(y,b,t);
  > endmodule
  > END
  $ tdelay worst slow.v --first .1 --second .1
  unit 1 ns
  defaulted 0
  exact 0
  from 01
  to 11
  nodes 1
  $ tdelay worst slow.v --flips 1
  unit 1 ns
  defaulted 0
  exact 5
  from 00
  to 10
  nodes 1
  $ tdelay worst hidden.v --flips 1
  unit 1 ns
  defaulted 0
  exact 5
  from 01
  to 11
  nodes 9
  $ tdelay worst inverter.v --flips 0
  unit 1 ns
  defaulted 0
  exact 0
  from 0
  to 0
  nodes 7
  $ tdelay worst inverter.v --hold =
  unit 1 ns
  defaulted 0
  exact 0
  from 0
  to 0
  nodes 7
  $ tdelay worst inverter.v --flips 18446744073709551615
  unit 1 ns
  defaulted 0
  exact 3
  from 0
  to 1
  nodes 1

Inputs that change at moments of their own. Zeros may lead a number.

  $ cat > skew.v <<'END'
  > module t(a, b, y);
  > input a, b;
  > output y;
  > and #2 g(y,a,b);
  > endmodule
  > END
  $ tdelay worst skew.v
  unit 1 ns
  defaulted 0
  exact 2
  from 00
  to 11
  nodes 1
  $ tdelay worst skew.v --at 0,2
  unit 1 ns
  defaulted 0
  exact 4
  from 00
  to 11
  nodes 1
  $ tdelay worst parted.v --at 007
  unit 1 ns
  defaulted 0
  exact 9
  from 0
  to 1
  nodes 1
  $ tdelay worst none.v --at none
  unit 1 ns
  defaulted 0
  exact 0
  from none
  to none
  nodes 1

The netlist is judged first, then the words in the order first, second, hold, at, and last whether a pair is admitted. Nothing is written.

  $ cat > looped.v <<'END'
  > module t(a, q);
  > input a;
  > output q;
  > nand #1 g(q,a,q);
  > endmodule
  > END
  $ tdelay worst inverter.v --cert d --first 0 --second 1 --hold =
  tdelay: no admitted pair
  [1]
  $ tdelay worst inverter.v --cert d --first 0 --second 1 --flips 0
  tdelay: no admitted pair
  [1]
  $ tdelay worst inverter.v --cert d --at x --hold 1
  tdelay: bad vector hold
  [2]
  $ tdelay worst inverter.v --cert d --hold x --first x
  tdelay: bad vector first
  [2]
  $ tdelay worst inverter.v --cert d --hold x --second ..
  tdelay: bad vector second
  [2]
  $ tdelay worst none.v --cert d --hold =
  tdelay: bad vector hold
  [2]
  $ tdelay worst looped.v --cert d --hold x
  tdelay: circuit fault 1 Loop on q
  [1]
  $ tdelay worst skew.v --cert d --at 0,+1
  tdelay: bad vector at
  [2]
  $ tdelay worst none.v --cert d --at 0
  tdelay: bad vector at
  [2]
  $ ls | grep '^d'
  [1]

Both strategies lead to the same worst delay, by two workers too, and their certificates are accepted, also those of `lead`, which have leaves
by edges.

  $ tdelay worst "$NETLISTS"/c17.v --strategy least --workers 2 --cert c | grep exact; tdelay check "$NETLISTS"/c17.v c
  exact 3
  accepted 3
  $ tdelay worst "$NETLISTS"/c17.v --strategy lead --workers 2 --cert c | grep exact; tdelay check "$NETLISTS"/c17.v c
  exact 3
  accepted 3
  $ tdelay worst reconvergent.v --strategy least --workers 2 --cert c | grep exact; tdelay check reconvergent.v c
  exact 3
  accepted 3
  $ tdelay worst reconvergent.v --strategy lead --workers 2 --cert c | grep exact; tdelay check reconvergent.v c
  exact 3
  accepted 3

Why the pair that is found is that late.

  $ tdelay worst skew.v --at 0,2 --path
  unit 1 ns
  defaulted 0
  exact 4
  from 00
  to 11
  nodes 1
  change 2 b 0 1 input
  change 4 y 0 1 and 2
  $ tdelay worst inverter.v --flips 0 --path
  unit 1 ns
  defaulted 0
  exact 0
  from 0
  to 0
  nodes 7
  time 0

How far a search has come is told each time that the nodes have passed 1,000, 2,000 and 5,000, on standard error and where it is asked
for. Four inputs that no gate reads make it long.

  $ cat > long.v <<'END'
  > module t(e, f, g, h, a, b, y);
  > input e, f, g, h, a, b;
  > output y;
  > buf #1 p1(p,b); buf #1 p2(q,b); xor #3 g1(y,a,p,q);
  > endmodule
  > END
  $ tdelay worst long.v --strategy=least --budget=6000 --progress 2>&1 > report | sed 's/ seconds [0-9]* rate [0-9]*$/ ../'
  nodes 1026 low 3 high 4 open 3 ..
  nodes 2049 low 3 high 4 open 2 ..
  nodes 5058 low 3 high 4 open 3 ..
  $ cat report
  unit 1 ns
  defaulted 0
  between 3 4
  cause budget
  from 000000
  to 111111
  nodes 6000
  $ tdelay worst $NETLISTS/adder_8.v --strategy refute --progress 2>&1 > report | sed 's/ seconds [0-9]* rate [0-9]*$/ ../'
  nodes 0 low 10 high 45 open 1 ..
  nodes 1 low 45 high 45 open 0 ..
  $ tdelay worst long.v --strategy=least --budget=6000 --progress 2> told
  unit 1 ns
  defaulted 0
  between 3 4
  cause budget
  from 000000
  to 111111
  nodes 6000
  [3]
  $ tdelay worst long.v --strategy=least --budget=6000
  unit 1 ns
  defaulted 0
  between 3 4
  cause budget
  from 000000
  to 111111
  nodes 6000
  [3]
