How a netlist, a circuit or a file that is refused is told: on standard error, with nothing on standard output.

  $ cat > two.v <<'END'
  > module t(a, y);
  > input a;
  > output y;
  > not #1 g(y,a); buf #1 h(y,a);
  > endmodule
  > END
  $ cat > looped.v <<'END'
  > module t(a, q);
  > input a;
  > output q;
  > nand #1 g(q,a,q);
  > endmodule
  > END
  $ cat > assigned.v <<'END'
  > module t(a, y);
  > input a;
  > output y;
  > assign y = a;
  > endmodule
  > END
  $ cat > inverter.v <<'END'
  > module t(a, y);
  > input a;
  > output y;
  > not #(2,3) g(y,a);
  > endmodule
  > END
  $ tdelay sim two.v 0 1
  tdelay: netlist fault 11 TwoDrivers at line 4
  [1]
  $ tdelay sim two.v 0 1 2> told
  [1]
  $ tdelay sim looped.v 0 1
  tdelay: circuit fault 1 Loop on q
  [1]
  $ tdelay sim assigned.v 0 1
  tdelay: netlist fault 4 OutOfSubset at line 4 (assign)
  [1]

The netlist is judged before the vectors.

  $ tdelay sim two.v 00 11
  tdelay: netlist fault 11 TwoDrivers at line 4
  [1]

A file that can't be read is told before anything is judged; `check` reads both of its files first.

  $ tdelay sim absent.v 0 1
  tdelay: cannot read absent.v
  [5]
  $ tdelay sim absent.v '' 2
  tdelay: cannot read absent.v
  [5]
  $ tdelay bound absent.v --first . --second .
  tdelay: cannot read absent.v
  [5]
  $ tdelay check two.v absent
  tdelay: cannot read absent
  [5]
  $ tdelay check absent.v absent
  tdelay: cannot read absent.v
  [5]

A file that would be written over the netlist, or over the other file that is written: nothing is read or written.

  $ tdelay worst inverter.v --cert inverter.v
  tdelay: inverter.v is inverter.v
  [2]
  $ tdelay worst inverter.v --vcd inverter.v
  tdelay: inverter.v is inverter.v
  [2]
  $ tdelay worst inverter.v --cert c --vcd inverter.v
  tdelay: inverter.v is inverter.v
  [2]
  $ tdelay sim inverter.v 0 1 --vcd inverter.v
  tdelay: inverter.v is inverter.v
  [2]
  $ tdelay worst inverter.v --vcd c --cert c
  tdelay: c is c
  [2]
  $ tdelay worst inverter.v --cert - --vcd -
  tdelay: - is -
  [2]
  $ tdelay sim absent.v 0 1 --vcd absent.v
  tdelay: absent.v is absent.v
  [2]
  $ ls; tdelay sim inverter.v 0 1
  assigned.v
  inverter.v
  looped.v
  told
  two.v
  unit 1 ns
  defaulted 0
  last y 3
  time 3
