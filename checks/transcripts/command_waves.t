The waves of an inverter whose input rises, of a run and of the pair that a search gives.

  $ cat > inverter.v <<'END'
  > module t(a, y);
  > input a;
  > output y;
  > not #(2,3) g(y,a);
  > endmodule
  > END
  $ tdelay sim inverter.v 0 1 --vcd o
  unit 1 ns
  defaulted 0
  last y 3
  time 3
  $ cat o
  $version tdelay 1 $end
  $timescale 1 ns $end
  $scope module t $end
  $var wire 1 ! a $end
  $var wire 1 " y $end
  $upscope $end
  $enddefinitions $end
  #0
  $dumpvars
  0!
  1"
  $end
  #1
  1!
  #4
  0"
  $ tdelay worst inverter.v --vcd p
  unit 1 ns
  defaulted 0
  exact 3
  from 0
  to 1
  nodes 1
  $ cmp o p
  $ tdelay worst inverter.v --cert c --vcd q
  unit 1 ns
  defaulted 0
  exact 3
  from 0
  to 1
  nodes 1
  $ cmp o q; cat c
  tdelay-cert 1
  circuit 1 1
  time 3
  from 0
  to 1
  b a 3

A search that is cut short writes the waves of its pair, a pulse that is lost, and no certificate.

  $ cat > lost.v <<'END'
  > module t(a, y);
  > input a;
  > output y;
  > not #1 n(b,a); and #2 g(y,a,b);
  > endmodule
  > END
  $ tdelay worst lost.v --budget=1 --cert d --vcd r
  unit 1 ns
  defaulted 0
  between 0 3
  cause budget
  from 0
  to 1
  nodes 1
  [3]
  $ cat r
  $version tdelay 1 $end
  $timescale 1 ns $end
  $scope module t $end
  $var wire 1 ! a $end
  $var wire 1 " b $end
  $var wire 1 # y $end
  $upscope $end
  $enddefinitions $end
  #0
  $dumpvars
  0!
  1"
  0#
  $end
  #1
  1!
  #2
  0"
  $ ls
  c
  inverter.v
  lost.v
  o
  p
  q
  r

A file that goes to standard output is alone there, also where the netlist comes from standard input.

  $ tdelay sim inverter.v 0 1 --vcd - | cmp - o
  $ tdelay worst inverter.v --vcd - | cmp - o
  $ tdelay worst inverter.v --cert - | cmp - c
  $ tdelay worst - --cert - < inverter.v | cmp - c
