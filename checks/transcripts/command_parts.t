A question that is cut into parts: the options of each, a line for each.

  $ cat > lost.v <<'END'
  > module t(a, y);
  > input a;
  > output y;
  > not #1 n(b,a); and #2 g(y,a,b);
  > endmodule
  > END
  $ cat > inverter.v <<'END'
  > module t(a, y);
  > input a;
  > output y;
  > not #(2,3) g(y,a);
  > endmodule
  > END
  $ tdelay parts lost.v --parts=1 --strategy=least --flips=1 --at=0
  --first . --second . --flips 1 --at 0
  $ tdelay parts lost.v --parts=2 --strategy=least --first=. --second=.
  --first 0 --second .
  --first 1 --second .
  $ tdelay parts lost.v --parts=9 --strategy=lead --first=1 --hold=.
  --first 1 --second 0 --hold .
  --first 1 --second 1 --hold .
  $ tdelay parts inverter.v --parts=9 --strategy=least --first=. --hold==
  --first 0 --second 0 --hold =
  --first 1 --second 1 --hold =
  $ tdelay parts lost.v --parts=2 --first=0 --second=1 --hold==
  tdelay: no admitted pair
  [1]
  $ tdelay parts lost.v --parts=2 --first=00 --second=1 --hold=.
  tdelay: bad vector first
  [2]

The two halves of the question about the netlist, by the first level of its input, as `worst` writes them.

  $ cat > zero <<'END'
  > tdelay-cert 2
  > circuit 1 2
  > first 0
  > second .
  > hold .
  > flips 1
  > time 0
  > from 0
  > to 1
  > s 1
  > b a 0
  > b a 0
  > END
  $ cat > one <<'END'
  > tdelay-cert 2
  > circuit 1 2
  > first 1
  > second .
  > hold .
  > flips 1
  > time 0
  > from 1
  > to 0
  > s 1
  > b a 0
  > b a 0
  > END
  $ tdelay worst lost.v --first 0 --second . --cert - | cmp - zero

They are checked and joined, which `--check` may say; so is the certificate of the whole alone. With `--no-check` none is checked.

  $ cat > whole <<'END'
  > tdelay-cert 1
  > circuit 1 2
  > time 0
  > from 0
  > to 1
  > s 0
  > s 1
  > b a 0
  > b a 0
  > s 1
  > b a 0
  > b a 0
  > END
  $ tdelay join lost.v zero one --first=.
  unit 1 ns
  defaulted 0
  exact 0
  from 0
  to 1
  nodes 7
  $ tdelay join lost.v zero one --check
  unit 1 ns
  defaulted 0
  exact 0
  from 0
  to 1
  nodes 7
  $ tdelay join lost.v whole --check --second=.
  unit 1 ns
  defaulted 0
  exact 0
  from 0
  to 1
  nodes 7
  $ tdelay join lost.v zero one --no-check
  unit 1 ns
  defaulted 0
  unchecked 0
  from 0
  to 1
  nodes 7
  $ tdelay join lost.v zero one --check --no-check | sed -n 3p
  unchecked 0
  $ tdelay join --check -- lost.v whole
  unit 1 ns
  defaulted 0
  exact 0
  from 0
  to 1
  nodes 7

The certificate of the whole goes to a file, or alone to standard output, in either order of the parts.

  $ tdelay join lost.v one zero --cert c
  unit 1 ns
  defaulted 0
  exact 0
  from 1
  to 0
  nodes 7
  $ cat c
  tdelay-cert 1
  circuit 1 2
  time 0
  from 1
  to 0
  s 0
  s 1
  b a 0
  b a 0
  s 1
  b a 0
  b a 0
  $ tdelay join lost.v zero one --cert - | cmp - whole

Why files aren't joined: a half twice, a half alone, other pins, a half of the question in which no bit may differ, another circuit, a
half with a time that its pair hasn't, a text that is no certificate, a file that isn't there, a bad vector, and a file that would be
written over a part.

  $ cat > later <<'END'
  > tdelay-cert 2
  > circuit 1 2
  > first 1
  > second .
  > hold .
  > flips 1
  > time 1
  > from 1
  > to 0
  > s 1
  > b a 0
  > b a 0
  > END
  $ cat > still <<'END'
  > tdelay-cert 2
  > circuit 1 2
  > first 1
  > second .
  > hold .
  > flips 0
  > time 0
  > from 1
  > to 1
  > s 1
  > none
  > b a 0
  > END
  $ cat > other <<'END'
  > tdelay-cert 1
  > circuit 1 1
  > time 3
  > from 0
  > to 1
  > b a 3
  > END
  $ cat > bad <<'END'
  > tdelay-cert 2
  > circle 1 2
  > END
  $ tdelay join lost.v zero zero --first=.
  tdelay: cannot join zero and zero: a pair in both
  [4]
  $ tdelay join lost.v zero --first=. --second=.
  tdelay: no part for --first 1 --second .
  [4]
  $ tdelay join lost.v zero one --first=1
  tdelay: zero: other pins
  [4]
  $ tdelay join lost.v zero still --first=.
  tdelay: cannot join zero and still: other flips
  [4]
  $ tdelay join lost.v zero other --no-check
  tdelay: other: other circuit
  [4]
  $ tdelay join lost.v zero later --check
  tdelay: later: refused 2 PairTime
  [4]
  $ tdelay join lost.v zero bad --check
  tdelay: bad: certificate fault 1 Syntax at line 2
  [1]
  $ tdelay join lost.v zero none --check
  tdelay: cannot read none
  [5]
  $ tdelay join lost.v zero one --first=..
  tdelay: bad vector first
  [2]
  $ tdelay join lost.v zero one --cert=one
  tdelay: one is one
  [2]

None of them wrote anything.

  $ ls; cat one
  bad
  c
  inverter.v
  later
  lost.v
  one
  other
  still
  whole
  zero
  tdelay-cert 2
  circuit 1 2
  first 1
  second .
  hold .
  flips 1
  time 0
  from 1
  to 0
  s 1
  b a 0
  b a 0
