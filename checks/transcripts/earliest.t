The moment before which no pair changes an output (`bound --earliest`), by edges.

  $ tdelay bound "$NETLISTS/c17.v" --earliest
  unit 1 ns
  defaulted 6
  a 3
  t none
  m 3
  earliest 2
  $ tdelay bound "$NETLISTS/c17.v" --edges --outputs --earliest
  unit 1 ns
  defaulted 6
  a 3
  t none
  m 3
  e 3
  n 3
  output N22
  earliest 2

No output changes where nothing does, where what is pinned keeps it, and where there is none.

  $ tdelay bound "$NETLISTS/c17.v" --first 00000 --second 00000 --earliest
  unit 1 ns
  defaulted 6
  a 0
  t 0
  m 0
  earliest none
  $ cat > gated.v <<'END'
  > module t (a, b, y, z);
  > input a, b;
  > output y, z;
  > and #(2,3) g (y, a, b);
  > buf #5 h (z, b);
  > endmodule
  > END
  $ tdelay bound gated.v --pin b=0 --earliest
  unit 1 ns
  defaulted 0
  a 0
  t 0
  m 0
  earliest none
  $ tdelay bound gated.v --pin b=0 --earliest --json
  {"proved":true,"command":"bound","file":"gated.v","question":{"default":{"rise":1,"fall":1},"output":[],"named":[{"option":"--pin","word":"b=0"}]},"unit":"1 ns","defaulted":0,"a":0,"t":0,"m":0,"earliest":null}
  $ cat > none.v <<'END'
  > module t;
  > endmodule
  > END
  $ tdelay bound none.v --earliest
  unit 1 ns
  defaulted 0
  a 0
  t 0
  m 0
  earliest none

Of some outputs alone, and with moments. From 0 a gate changes to 1 first.

  $ tdelay bound gated.v --earliest
  unit 1 ns
  defaulted 0
  a 5
  t none
  m 5
  earliest 2
  $ tdelay bound gated.v --output z --earliest
  unit 1 ns
  defaulted 0
  a 5
  t none
  m 5
  earliest 5
  $ tdelay bound gated.v --at 7,3 --earliest
  unit 1 ns
  defaulted 0
  a 10
  t none
  m 10
  earliest 5
  $ tdelay bound gated.v --at 7,3 --first 1. --second 0. --pin b=1 --earliest
  unit 1 ns
  defaulted 0
  a 10
  t 10
  m 10
  earliest 10
  $ tdelay sim gated.v 11 01 --at 7,3
  unit 1 ns
  defaulted 0
  last y 10
  last z never
  time 10

No other command takes the option.

  $ tdelay sim gated.v 11 01 --earliest 2>&1 | head -n 1
  error: unexpected argument '--earliest' found
