What is wrong with the names, drivers and ports of a netlist. Each row has the first fault of a text, a bar, and the text.

  $ cat > rows <<'END'
  > #!/usr/bin/env bash
  > # Reads rows: what is wrong with a netlist, or ok, a bar, and its text with the escapes of printf. Prints the rows of which `tdelay info`
  > # says something else, with that, and how many rows there were.
  > count=0
  > while IFS='|' read -r said text; do
  >   printf '%b' "$text" > t.v
  >   if found=$(tdelay info t.v 2>&1 > info); then found=ok; fi
  >   found=${found#tdelay: netlist fault }
  >   [ "$found" = "$said" ] || echo "$found|$text"
  >   count=$((count + 1))
  > done
  > echo $count rows
  > END

A netlist of scalar nets: each kind of fault, and which of several comes first. A loop is found behind the faults of the text. A net
without a driver that nobody reads is dropped. What is declared once by its direction and once by `wire` is declared once; of two undriven
outputs the first of the port list is told.

  $ bash rows <<'END'
  > ok|module t (a, y);\ninput a;\noutput y;\nnot #(2,3) g(y,a);\nendmodule\n
  > tdelay: circuit fault 1 Loop on q|module t(a, q);\ninput a;\noutput q;\nnand #1 g(q,a,q);\nendmodule\n
  > 1 BadByte at line 2|module t;\n\x01
  > 2 UnexpectedEnd at line 5|module t (a, y);\ninput a;\noutput y;\nnot #(2,3) g(y,a);\n
  > 3 Syntax at line 2|module t;\nand (y);\nendmodule
  > 4 OutOfSubset at line 2 (foo)|module t;\nfoo (y, a);\nendmodule
  > 5 ZeroDelay at line 4|module t(a, b, y);\ninput a, b;\noutput y;\nnand #0 g(y,a,b);\nendmodule\n
  > 7 DelayTooLarge at line 4|module t(a, b, y);\ninput a, b;\noutput y;\nnand #1_000_000_001 g(y,a,b);\nendmodule\n
  > 8 Redeclared at line 2|module t(a,\na);\ninput a;\nendmodule\n
  > 8 Redeclared at line 3|module t(a);\ninput a;\ninput a;\nendmodule\n
  > 8 Redeclared at line 4|module t(a);\ninput a;\noutput\na;\nendmodule\n
  > 8 Redeclared at line 3|module t(a);\ninput a; wire a;\nwire a;\nendmodule\n
  > ok|module t(a);\ninput wire a;\nwire a;\nendmodule\n
  > 11 TwoDrivers at line 4|module t(a, y);\ninput a;\noutput y;\nnot #1 g(y,a); buf #1 h(y,a);\nendmodule\n
  > 11 TwoDrivers at line 5|module t(a, y);\ninput a;\noutput y;\nbuf (y,\ny,a);\nendmodule\n
  > 12 DrivenInput at line 4|module t(a, y);\ninput a;\noutput y;\nnot (a,y);\nendmodule\n
  > 12 DrivenInput at line 2|module t(a, y);\nnot (y,a), (a,\ny);\ninput a;\noutput y;\nendmodule\n
  > 13 Undriven at line 5|module t(a, y);\ninput a;\noutput y;\nnot (y,\nb);\nendmodule\n
  > 13 Undriven at line 5|module t(y,\nx);\noutput\nx;\noutput y;\nbuf (x, x);\nendmodule\n
  > 13 Undriven at line 6|module t(a, y);\ninput a;\noutput y;\nwire w;\nand (y, a,\nw);\nendmodule\n
  > 13 Undriven at line 3|module t(y, x);\noutput x;\noutput y;\nendmodule\n
  > ok|module t(a, y);\ninput a;\noutput y;\nwire w;\nbuf (y, a);\nendmodule\n
  > 15 PortUndeclared at line 3|module t(a);\ninput a;\noutput b;\nendmodule\n
  > 15 PortUndeclared at line 2|module t(a,\nb);\ninput a;\nendmodule\n
  > 3 Syntax at line 4|module t(a, a);\ninput a;\nbuf (y, z);\nand (y);\nendmodule\n
  > 11 TwoDrivers at line 5|module t(a, y);\ninput a;\noutput y;\nbuf (y, z);\nbuf (y, a);\nendmodule\n
  > 8 Redeclared at line 5|module t(a, b);\nbuf (a, a);\ninput a;\nwire w;\nwire w;\nendmodule\n
  > 15 PortUndeclared at line 2|module t(a,\nb);\ninput a;\nbuf (a, a);\nendmodule\n
  > END
  28 rows

Vectors, constants and declared ports.

  $ bash rows <<'END'
  > ok|module t (input [1:0] a, output y); and #1 (y, a[1], a[0]); endmodule
  > 9 UnknownBit at line 2|module t (input [1:0] a, output y); and #1 (y, a[1],\na[2]); endmodule
  > 9 UnknownBit at line 2|module t (input a, output y); and #1 (y,\na[0]); endmodule
  > 9 UnknownBit at line 2|module t (input a, output y); and #1 (y, a,\nb[0]); endmodule
  > 9 UnknownBit at line 1|module t (input [0:0] a, output y); buf (y, a[1000000001]); endmodule
  > 10 WidthNotOne at line 2|module t (input [1:0] a, output y);\nbuf (y, a); endmodule
  > ok|module t (input [7:7] a, output y); buf (y, a); buf (w, a[7]); endmodule
  > ok|module t (output [1:0] y, input a); buf (y[1], y[0], a); endmodule
  > 13 Undriven at line 2|module t (output\n[1:0] y, input a); buf (y[1], a); endmodule
  > 11 TwoDrivers at line 2|module t (output [1:0] y, input a); buf (y[1],\ny[1], a); endmodule
  > 12 DrivenInput at line 2|module t (input [1:0] a, output y); buf (y, a[0]);\nnot (a[1], y); endmodule
  > ok|module t (a, y); input [1:0] a; wire [1:0] a; output y; buf (y, a[0]); endmodule
  > 8 Redeclared at line 2|module t (a, y); input [1:0] a; wire\n[0:1] a; output y; buf (y, a[0]); endmodule
  > 8 Redeclared at line 2|module t (a, y); wire a; input\n[0:0] a; output y; buf (y, a); endmodule
  > ok|module t (input a, output wire y); wire a, y; buf (y, a); endmodule
  > 8 Redeclared at line 2|module t (input a, b,\na, output y); endmodule
  > 8 Redeclared at line 2|module t (input a, output y);\ninput a; endmodule
  > 14 TooMany at line 2|module t (input [4096:0]\na); endmodule
  > ok|module t (input [4095:0] a); endmodule
  > 14 TooMany at line 1|module t (input [4094:0] a, b,\nc); endmodule
  > 14 TooMany at line 2|module t; wire [1000000000:0]\nw; endmodule
  > ok|module t; wire [999999:0] w; endmodule
  > 14 TooMany at line 1|module t; wire [1000000001:1000000001] w; endmodule
  > ok|module t (output y); and #1 g(y,1'b1,1'b1); endmodule
  > ok|module t (input \\a+ , output \\y+ ); buf #1 (\\y+ , \\a+ ); endmodule
  > ok|module t (cpu3, y); input \\cpu3 ; output y; not #2 (y, \\cpu3 ); endmodule
  > 6 DelayTooFine at line 3|`timescale 1ns/100ps\nmodule t (input a, output y);\nnot #1.25 (y, a); endmodule
  > ok|module t (input a, output b, c); buf (b, c, a); endmodule
  > 8 Redeclared at line 1|module t (input a, input b, a, c);\nwire a, a; endmodule
  > END
  29 rows

Loops of one gate, of two (told by either net), and with a net that leads to the loop and one that it leads to. Two ways to one net are
none.

  $ bash rows <<'END'
  > tdelay: circuit fault 1 Loop on q|module t(a, q);\ninput a;\noutput q;\nnand #1 g(q,a,q);\nendmodule\n
  > ok|module t(a, y);\ninput a;\noutput y;\nand (y,c,b); not (b,a), (c,b);\nendmodule\n
  > END
  2 rows
  $ printf 'module t(s, r, q, p);\ninput s, r;\noutput q, p;\nnand #1 g(q,s,p), h(p,r,q);\nendmodule\n' > t.v; tdelay info t.v 2>&1 | sed 's/[qp]$/q or p/'
  tdelay: circuit fault 1 Loop on q or p
  $ printf 'module t(a, y);\ninput a;\noutput y;\nbuf (y,c), (b,a); and (c,d,b); not (d,c);\nendmodule\n' > t.v; tdelay info t.v 2>&1 | sed 's/[cd]$/c or d/'
  tdelay: circuit fault 1 Loop on c or d

What is in a netlist: bits from left to right, constants, the unit and delays in steps; its ports in the order of their list, and the
default delays.

  $ cat > whole.v <<'END'
  > `timescale 1ns/10ps
  > module t (input [1:3] a, input \b+ , output [1:0] y); nand #(1.5,2) (y[0], a[3], 1'b1, \b+ ); buf (y[1], a[1]); endmodule
  > END
  $ tdelay info whole.v
  module t
  unit 10 ps
  inputs 4
  outputs 2
  gates 2
  defaulted 1
  depth 1
  delay 1 200
  input 0 a[1]
  input 1 a[2]
  input 2 a[3]
  input 3 \b+
  output 0 y[1]
  output 1 y[0]
  $ tdelay sim whole.v 0001 0011
  unit 10 ps
  defaulted 1
  last y[1] never
  last y[0] 200
  time 200
  $ tdelay sim whole.v 0011 1001
  unit 10 ps
  defaulted 1
  last y[1] 1
  last y[0] 150
  time 150
  $ cat > lists.v <<'END'
  > module top(b, y, a, z); input a, b; output z, y; buf (y, z, a); nor #(3, 7) g(w, y, a, b), (v, w, b); endmodule
  > END
  $ tdelay info lists.v --default-rise 4 --default-fall 5
  module top
  unit 1 ns
  inputs 2
  outputs 2
  gates 4
  defaulted 2
  depth 3
  delay 3 7
  input 0 b
  input 1 a
  output 0 y
  output 1 z
  $ tdelay sim lists.v --default-rise 4 --default-fall 5 01 00
  unit 1 ns
  defaulted 2
  last y 5
  last z 5
  time 5

A gate of constants alone, a fraction, and a fraction that comes to no whole number of steps.

  $ cat > constant.v <<'END'
  > module t (y); output y; and #1 g(y,1'b1,1'b1); endmodule
  > END
  $ tdelay sim constant.v none none
  unit 1 ns
  defaulted 0
  last y never
  time 0
  $ cat > fraction.v <<'END'
  > `timescale 1ns/1ps
  > module t(a, y);
  > input a;
  > output y;
  > not #1.5 g(y,a);
  > endmodule
  > END
  $ tdelay sim fraction.v 0 1
  unit 1 ps
  defaulted 0
  last y 1500
  time 1500
  $ cat > fine.v <<'END'
  > `timescale 1ns/100ps
  > module t(a, y);
  > input a;
  > output y;
  > not #1.25 g(y,a);
  > endmodule
  > END
  $ tdelay sim fine.v 0 1
  tdelay: netlist fault 6 DelayTooFine at line 5
  [1]

Names as they are printed: a bit of a vector, an escaped name with its backslash, and a space before the number of its bit.

  $ cat > escaped.v <<'END'
  > module t (input [1:0] a, output \y+ ); and #1 (\y+ , a[1], a[0]); endmodule
  > END
  $ tdelay sim escaped.v 10 11
  unit 1 ns
  defaulted 0
  last \y+ 1
  time 1
  $ cat > bits.v <<'END'
  > module t (input a, output [1:0] \y+ ); buf (\y+ [1], \y+ [0], a); endmodule
  > END
  $ tdelay sim bits.v 0 1
  unit 1 ns
  defaulted 2
  last \y+ [1] 1
  last \y+ [0] 1
  time 1

An escaped name that is a simple one is that name, and printed so; a reserved word and what is no simple name keep the backslash.

  $ cat > names <<'END'
  > a
  > _
  > Z9
  > _a$1
  > cpu3
  > Wire
  > wires
  > tri2
  > always1
  > N_1$
  > 1
  > 1a
  > $a
  > y+
  > a.b
  > \a
  > wire
  > wor
  > nand
  > a+b
  > END
  $ { echo 'module t'; sed 's/.*/, \\& /; 1s/,/(/' names; echo '); input'; sed 's/.*/, \\& /; 1s/,//' names; echo ';endmodule'; } > names.v; tdelay info names.v | grep input
  inputs 20
  input 0 a
  input 1 _
  input 2 Z9
  input 3 _a$1
  input 4 cpu3
  input 5 Wire
  input 6 wires
  input 7 tri2
  input 8 always1
  input 9 N_1$
  input 10 \1
  input 11 \1a
  input 12 \$a
  input 13 \y+
  input 14 \a.b
  input 15 \\a
  input 16 \wire
  input 17 \wor
  input 18 \nand
  input 19 \a+b
  $ cat > words.v <<'END'
  > module t (output [12:12] a, output [0:0] \a+b , output [3:3] \while , output wire \y ); buf (\a [12], \a+b [0], \while [3], y, 1'b0); endmodule
  > END
  $ tdelay info words.v | grep output
  outputs 4
  output 0 a[12]
  output 1 \a+b [0]
  output 2 \while [3]
  output 3 y

Rows with a line that `tdelay info` prints, a bar, and the netlist.

  $ cat > shown <<'END'
  > #!/usr/bin/env bash
  > # Reads rows: a line, a bar, and a netlist's text with the escapes of printf. Prints the rows whose line `tdelay info` doesn't say, with
  > # what it says, and how many rows there were.
  > count=0
  > while IFS='|' read -r line text; do
  >   printf '%b' "$text" > t.v
  >   tdelay info t.v > info 2>&1
  >   grep -qxF -e "$line" -e "tdelay: netlist fault $line" info || { echo "$line|$text"; cat info; }
  >   count=$((count + 1))
  > done
  > echo $count rows
  > END

Numbers of bits.

  $ bash shown <<'END'
  > output 0 y[0]|module t(y); output [0:0] y; buf (y, 1'b0); endmodule
  > output 0 y[0]|module t(y); output [00_0_:00_0_] y; buf (y, 1'b0); endmodule
  > output 0 y[7]|module t(y); output [7:7] y; buf (y, 1'b0); endmodule
  > output 0 y[1024]|module t(y); output [1_024:1_024] y; buf (y, 1'b0); endmodule
  > output 0 y[42]|module t(y); output [0_0_42_:0_0_42_] y; buf (y, 1'b0); endmodule
  > output 0 y[999999999]|module t(y); output [999999999:999999999] y; buf (y, 1'b0); endmodule
  > output 0 y[1000000000]|module t(y); output [1_000_000_000:1_000_000_000] y; buf (y, 1'b0); endmodule
  > 14 TooMany at line 1|module t(y); output [1000000001:1000000001] y; buf (y, 1'b0); endmodule
  > 14 TooMany at line 1|module t(y); output [4294967296:4294967296] y; buf (y, 1'b0); endmodule
  > 14 TooMany at line 1|module t(y); output [18446744073709551616:18446744073709551616] y; buf (y, 1'b0); endmodule
  > END
  10 rows

Delays as steps of the last timescale.

  $ bash shown <<'END'
  > 5 ZeroDelay at line 2|`timescale 1ns/1ns\nmodule t(a, y); input a; output y; not #0 (y, a); endmodule
  > delay 1 1|`timescale 1ns/1ns\nmodule t(a, y); input a; output y; not #1 (y, a); endmodule
  > delay 1 1|`timescale 1ns/1ns\nmodule t(a, y); input a; output y; not #1.0_0 (y, a); endmodule
  > 5 ZeroDelay at line 2|`timescale 1ns/1ns\nmodule t(a, y); input a; output y; not #0.000 (y, a); endmodule
  > 6 DelayTooFine at line 2|`timescale 1ns/1ns\nmodule t(a, y); input a; output y; not #0.1 (y, a); endmodule
  > 6 DelayTooFine at line 2|`timescale 1ns/1ns\nmodule t(a, y); input a; output y; not #1.01 (y, a); endmodule
  > delay 1000 1000|`timescale 1ns/1ps\nmodule t(a, y); input a; output y; not #1 (y, a); endmodule
  > delay 1500 1500|`timescale 1ns/1ps\nmodule t(a, y); input a; output y; not #1.5 (y, a); endmodule
  > delay 10007 10007|`timescale 1ns/1ps\nmodule t(a, y); input a; output y; not #1_0.0_0_7 (y, a); endmodule
  > 6 DelayTooFine at line 2|`timescale 1ns/1ps\nmodule t(a, y); input a; output y; not #1.0007 (y, a); endmodule
  > 6 DelayTooFine at line 2|`timescale 1ns/1ps\nmodule t(a, y); input a; output y; not #1.00070 (y, a); endmodule
  > 6 DelayTooFine at line 2|`timescale 1ns/100ps\nmodule t(a, y); input a; output y; not #1.25 (y, a); endmodule
  > delay 12 12|`timescale 1ns/100ps\nmodule t(a, y); input a; output y; not #1.2000 (y, a); endmodule
  > delay 1000000000 1000000000|`timescale 1s/1ns\nmodule t(a, y); input a; output y; not #1.000000000 (y, a); endmodule
  > 7 DelayTooLarge at line 2|`timescale 1s/1ns\nmodule t(a, y); input a; output y; not #1.000000001 (y, a); endmodule
  > 6 DelayTooFine at line 2|`timescale 1s/1ns\nmodule t(a, y); input a; output y; not #1.0000000001 (y, a); endmodule
  > 6 DelayTooFine at line 2|`timescale 1s/1ns\nmodule t(a, y); input a; output y; not #99999999999.0000000001 (y, a); endmodule
  > delay 1 1|`timescale 100s/1fs\nmodule t(a, y); input a; output y; not #0.00000000000000001 (y, a); endmodule
  > delay 1 1|`timescale 100s/1fs\nmodule t(a, y); input a; output y; not #0.000000000000000010 (y, a); endmodule
  > 7 DelayTooLarge at line 2|`timescale 100s/1fs\nmodule t(a, y); input a; output y; not #100 (y, a); endmodule
  > delay 1 1|module t(a, y); input a; output y; not #1 (y, a); endmodule
  > delay 1 1|(* a *) `celldefine module t(a, y); input a; output y; not #1 (y, a); endmodule
  > delay 10 10|`timescale 1ns/1ps `timescale 1us/100ns module t(a, y); input a; output y; not #1 (y, a); endmodule
  > delay 1 1|`timescale 1ns/1ps `timescale 1ns/1ns module t(a, y); input a; output y; not #1 (y, a); endmodule
  > delay 1000 1000|`timescale 1ns/1ns `timescale 1ns/1ps module t(a, y); input a; output y; not #1 (y, a); endmodule
  > delay 1000 1000|`timescale 1ns/1ps `celldefine (* a *) module t(a, y); input a; output y; not #1 (y, a); endmodule
  > delay 1000 1000|`timescale 1ns/1ps module t(a, y); input a; output y; not #1 (y, a); endmodule `timescale 1ns/1ns
  > END
  27 rows

Each unit with each step: the step is the unit of the report, and a delay of 1 is so many of it. A step that is greater than the unit is
refused, and so is a delay above 1,000,000,000 steps.

  $ spans=(1fs 10fs 100fs 1ps 10ps 100ps 1ns 10ns 100ns 1us 10us 100us 1ms 10ms 100ms 1s 10s 100s)
  > for unit in {0..17}; do
  >   for step in {0..17}; do
  >     span=${spans[step]}
  >     printf -v tens '1%*s' $((unit > step ? unit - step : 0)) ''
  >     line="delay ${tens// /0} ${tens// /0}"
  >     ((unit - step > 9)) && line='7 DelayTooLarge at line 2'
  >     ((unit < step)) && line='3 Syntax at line 1'
  >     echo "$line|\`timescale ${spans[unit]}/$span\nmodule t(a, y); input a; output y; not #1 (y, a); endmodule"
  >     ((unit - step > 9 || unit < step)) || echo "unit ${span%%[a-z]*} ${span##*[0-9]}|\`timescale ${spans[unit]}/$span\nmodule t(a, y); input a; output y; not #1 (y, a); endmodule"
  >   done
  > done | bash shown
  459 rows

The limits on inputs and on nets: the last that is taken, and the first that is one too many.

  $ for count in 4096 4097; do
  >   seq -s , -f w%.0f $count > names
  >   { printf 'module t('; cat names; printf ');\ninput\n'; cat names; echo ';endmodule'; } > t.v
  >   tdelay info t.v | grep inputs
  > done
  inputs 4096
  tdelay: netlist fault 14 TooMany at line 4
  [1]
  $ for count in 1000000 1000001; do
  >   { printf 'module t;wire\n'; seq -s , -f w%.0f $count; echo ';endmodule'; } > t.v
  >   tdelay info t.v | grep gates
  > done
  gates 0
  tdelay: netlist fault 14 TooMany at line 2
  [1]

A chain of buffers, the last of which stands first in the text.

  $ { printf 'module t(w0, w100000); input w0; output w100000;\n'; for ((i = 100000; i > 0; i--)); do echo "buf (w$i,w$((i - 1)));"; done; echo endmodule; } > chain.v
  $ tdelay info chain.v
  module t
  unit 1 ns
  inputs 1
  outputs 1
  gates 100000
  defaulted 100000
  depth 100000
  delay 1 1
  input 0 w0
  output 0 w100000
  $ tdelay sim chain.v 0 1
  unit 1 ns
  defaulted 100000
  last w100000 100000
  time 100000
