Several outputs in one question: the certificate names them, in the order of the port list, and `check` needs no option.

  $ cat > three.v <<'END'
  > module three(a, b, x, y, z);
  > input a, b;
  > output x, y, z;
  > buf (x, a);
  > and #2 (y, a, b);
  > not #5 (z, a);
  > endmodule
  > END
  $ tdelay worst three.v --output y --output x --output y --strategy lead --cert xy.cert
  unit 1 ns
  defaulted 1
  exact 2
  from 00
  to 11
  nodes 1
  $ sed -n 4p xy.cert
  output 0 1
  $ tdelay check three.v xy.cert
  accepted 2
  output 0 1
  $ tdelay check three.v xy.cert --json
  {"proved":true,"command":"check","file":"three.v","question":{"certificate":"xy.cert"},"accepted":{"exact":2},"output":[{"index":0},{"index":1}]}

An option that says what the text tells changes nothing, one that says something else is a verdict.

  $ tdelay check three.v xy.cert --output x --output y --default-rise 1
  accepted 2
  output 0 1
  $ tdelay check three.v xy.cert --output y
  refused 11 OtherQuestion line 4
  [4]
  $ tdelay check three.v xy.cert --default-rise 2 --output y
  refused 11 OtherQuestion line 3
  [4]
  $ tdelay check three.v xy.cert --output w
  tdelay: no output of this name
  [2]

Default delays stand in the text too, and the netlist is read with them.

  $ tdelay worst three.v --default-fall 3 --output z --output x --strategy lead --cert xz.cert --quiet
  $ tdelay check three.v xz.cert
  accepted 5
  default 1 3
  output 0 2
  $ tdelay check three.v xz.cert --default-fall 3
  accepted 5
  default 1 3
  output 0 2
  $ tdelay check three.v xz.cert --default-fall 2
  refused 11 OtherQuestion line 3
  [4]

A number that no output has, and numbers that don't rise, are of another circuit, whatever is told.

  $ sed 's/^output 0 1$/output 0 3/' xy.cert > far.cert
  $ tdelay check three.v far.cert
  refused 7 OtherCircuit
  [4]
  $ sed 's/^output 0 1$/output 1 0/' xy.cert > back.cert
  $ tdelay check three.v back.cert --output x --default-rise 2
  refused 7 OtherCircuit
  [4]

Parts name the outputs again, and a name that no output has is told.

  $ tdelay parts three.v --parts 2 --output y --output x
  --first 0. --second .. --output y --output x
  --first 1. --second .. --output y --output x
  $ tdelay worst three.v --output x --output w --hints
  tdelay: no output of this name
  --output: no output has the name w; there are x y z
    help: give one of these; a bit of a vector is a[3]
  [2]
