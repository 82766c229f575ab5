What `--hints` says behind the line of a refusal, on standard error. Without it nothing is there but the line.

  $ cat > body.sh <<'END'
  > # The hint for a netlist whose module has this body.
  > printf 'module t(a, y);\ninput a;\noutput y;\n%s\nendmodule\n' "$1" > t.v
  > tdelay info t.v --hints 2>&1
  > END
  $ cat > two.v <<'END'
  > module t(a, y);
  > input a;
  > output y;
  > not #1 g(y,a);
  > buf #1 h(y,a);
  > endmodule
  > END
  $ tdelay sim two.v 0 1
  tdelay: netlist fault 11 TwoDrivers at line 5
  [1]
  $ tdelay sim two.v 0 1 --hints
  tdelay: netlist fault 11 TwoDrivers at line 5
  two.v:5: a second gate output drives net y; the first is at line 4
      buf #1 h(y,a);
    help: give the two outputs two names: there are no wired nets
  [1]

The environment may ask for it, too, as a log of a batch system wants it.

  $ TDELAY_HINTS=1 tdelay sim two.v 0 1
  tdelay: netlist fault 11 TwoDrivers at line 5
  two.v:5: a second gate output drives net y; the first is at line 4
      buf #1 h(y,a);
    help: give the two outputs two names: there are no wired nets
  [1]
  $ TDELAY_HINTS=0 tdelay sim two.v 0 1
  tdelay: netlist fault 11 TwoDrivers at line 5
  [1]

It is an option of each command, and stands behind its name.

  $ tdelay --hints sim two.v 0 1 2> said; head -1 said
  error: unexpected argument '--hints' found

Which net has two drivers, and where the first one is; `buf` and `not` have several outputs.

  $ printf 'module t(input a, b, output [3:0] y);\nbuf (y[0],\n y[03], a);\nand (y[1], a, b), (\n y[3], y[1], b);\nendmodule\n' > bits.v
  $ tdelay info bits.v --hints
  tdelay: netlist fault 11 TwoDrivers at line 5
  bits.v:5: a second gate output drives net y[3]; the first is at line 3
       y[3], y[1], b);
    help: give the two outputs two names: there are no wired nets
  [1]
  $ bash body.sh $'not (\\n+1 , a);\nbuf (y, \\n+1 , a);'
  tdelay: netlist fault 11 TwoDrivers at line 5
  t.v:5: a second gate output drives net \n+1; the first is at line 4
      buf (y, \n+1 , a);
    help: give the two outputs two names: there are no wired nets
  [1]

A vector of one bit that is named in two ways isn't looked for.

  $ bash body.sh $'wire [3:3] w;\nnot (w, a);\nbuf (y, w[3], a);'
  tdelay: netlist fault 11 TwoDrivers at line 6
  t.v:6: a second gate drives a net that has a driver
      buf (y, w[3], a);
    help: give the two outputs two names: there are no wired nets
  [1]

Which input is driven, and where it is declared.

  $ printf 'module t(output y, input\n [1:0] a,\n b);\nnot (y, a[0]);\nbuf (b[0], y);\nendmodule\n' > in.v
  $ tdelay info in.v --hints
  tdelay: netlist fault 12 DrivenInput at line 5
  in.v:5: a gate output drives the input b[0]; it is declared at line 3
      buf (b[0], y);
    help: rename the net, or make it no input
  [1]

Each fault of a netlist's text.

  $ bash body.sh $'wire \001;'
  tdelay: netlist fault 1 BadByte at line 4
  t.v:4: a byte that no word may hold: a control character, or a letter that isn't ASCII
      wire ?;
    help: rename the net, or save the text as ASCII
  [1]
  $ bash body.sh $'/* open'
  tdelay: netlist fault 2 UnexpectedEnd at line 6
  t.v:6: the text ends inside a comment, an attribute, a directive or the module, or has no module
    help: close it; if the file is empty or cut off, fetch it again
  [1]
  $ bash body.sh $'not (y);'
  tdelay: netlist fault 3 Syntax at line 4
  t.v:4: a word that the grammar doesn't allow here
      not (y);
    help: mend the line; a comma or a semicolon is often missing before it
  [1]
  $ bash body.sh $'not #0 (y, a);'
  tdelay: netlist fault 5 ZeroDelay at line 4
  t.v:4: a delay of 0
      not #0 (y, a);
    help: give it 1 step at least, or leave it out and choose --default-rise and --default-fall
  [1]
  $ bash body.sh $'not #0.5 (y, a);'
  tdelay: netlist fault 6 DelayTooFine at line 4
  t.v:4: a delay that is no whole number of steps
      not #0.5 (y, a);
    help: give `timescale a shorter step, or round the delay
  [1]
  $ bash body.sh $'not #2000000000 (y, a);'
  tdelay: netlist fault 7 DelayTooLarge at line 4
  t.v:4: a delay of more than 1,000,000,000 steps
      not #2000000000 (y, a);
    help: give `timescale a longer step
  [1]
  $ bash body.sh $'input a;'
  tdelay: netlist fault 8 Redeclared at line 4
  t.v:4: a name that is declared again: with a second direction, as a second wire or port, or with another range
      input a;
    help: remove one of the two, or make the ranges equal
  [1]
  $ bash body.sh $'not (y, a[0]);'
  tdelay: netlist fault 9 UnknownBit at line 4
  t.v:4: a bit of a scalar, of a name that isn't declared, or outside its range
      not (y, a[0]);
    help: declare the vector, or mend the number
  [1]
  $ bash body.sh $'wire [1:0] w; not (y, w);'
  tdelay: netlist fault 10 WidthNotOne at line 4
  t.v:4: a vector of several bits as the terminal of a gate
      wire [1:0] w; not (y, w);
    help: name a bit, one gate for each
  [1]
  $ bash body.sh $'not (y, a); buf (y, a);'
  tdelay: netlist fault 11 TwoDrivers at line 4
  t.v:4: a second gate output drives net y; the first is at line 4
      not (y, a); buf (y, a);
    help: give the two outputs two names: there are no wired nets
  [1]
  $ bash body.sh $'not (a, y);'
  tdelay: netlist fault 12 DrivenInput at line 4
  t.v:4: a gate output drives the input a; it is declared at line 2
      not (a, y);
    help: rename the net, or make it no input
  [1]
  $ bash body.sh $'not (y, b);'
  tdelay: netlist fault 13 Undriven at line 4
  t.v:4: a net without a driver, which a gate reads or which is an output
      not (y, b);
    help: mind its spelling; drive it by a gate, by 1'b0 or 1'b1, or make it an input; an output that passes an input on needs a buf
  [1]
  $ bash body.sh $'wire [1000000001:0] w;'
  tdelay: netlist fault 14 TooMany at line 4
  t.v:4: a limit on the size of a netlist is passed
      wire [1000000001:0] w;
    help: take the circuit apart, or make the range smaller: docs/NETLIST.md, Limits
  [1]
  $ bash body.sh $'output z;'
  tdelay: netlist fault 15 PortUndeclared at line 4
  t.v:4: a port without a direction, or a direction for a name that is no port
      output z;
    help: declare it, or list it among the ports
  [1]

Each way to leave the subset.

  $ bash body.sh "DFFX1 u1(.D(a), .Q(y));"
  tdelay: netlist fault 4 OutOfSubset at line 4 (DFFX1)
  t.v:4: DFFX1: an instance of a cell or of another module, or a parameter as a delay
      DFFX1 u1(.D(a), .Q(y));
    help: a cell instance: map it to gate primitives, see docs/FROM-RTL.md; a delay: write it as a number
  [1]
  $ bash body.sh "assign y = a;"
  tdelay: netlist fault 4 OutOfSubset at line 4 (assign)
  t.v:4: assign: behaviour or a variable, where gate primitives have to be
      assign y = a;
    help: synthesise it to gates: see docs/FROM-RTL.md
  [1]
  $ bash body.sh "reg r;"
  tdelay: netlist fault 4 OutOfSubset at line 4 (reg)
  t.v:4: reg: behaviour or a variable, where gate primitives have to be
      reg r;
    help: synthesise it to gates: see docs/FROM-RTL.md
  [1]
  $ bash body.sh "tri w;"
  tdelay: netlist fault 4 OutOfSubset at line 4 (tri)
  t.v:4: tri: high impedance, a wired net or a switch
      tri w;
    help: write it as gates: no net has the level z
  [1]
  $ bash body.sh "bufif1 (y, a, a);"
  tdelay: netlist fault 4 OutOfSubset at line 4 (bufif1)
  t.v:4: bufif1: high impedance, a wired net or a switch
      bufif1 (y, a, a);
    help: write it as gates: no net has the level z
  [1]
  $ bash body.sh "wire (strong0, pull1) w;"
  tdelay: netlist fault 4 OutOfSubset at line 4 (()
  t.v:4: (: a strength
      wire (strong0, pull1) w;
    help: leave it out: a net has one driver
  [1]
  $ bash body.sh "not (strong0, pull1) (y, a);"
  tdelay: netlist fault 4 OutOfSubset at line 4 (strong0)
  t.v:4: strong0: a strength
      not (strong0, pull1) (y, a);
    help: leave it out: a net has one driver
  [1]
  $ bash body.sh "wire #1 w;"
  tdelay: netlist fault 4 OutOfSubset at line 4 (#)
  t.v:4: #: a net's delay
      wire #1 w;
    help: put a buf with this delay into the net
  [1]
  $ bash body.sh "not #(1,2,3) (y, a);"
  tdelay: netlist fault 4 OutOfSubset at line 4 (,)
  t.v:4: ,: a third delay, to high impedance
      not #(1,2,3) (y, a);
    help: leave it out: a gate has a rise and a fall delay
  [1]
  $ bash body.sh "not #(1:2:3) (y, a);"
  tdelay: netlist fault 4 OutOfSubset at line 4 (:)
  t.v:4: :: a choice of minimal, typical and maximal delay, or a part of a vector
      not #(1:2:3) (y, a);
    help: write one of the three delays; name one bit
  [1]
  $ bash body.sh "not g[1:0] (y, a);"
  tdelay: netlist fault 4 OutOfSubset at line 4 ([)
  t.v:4: [: an array of instances
      not g[1:0] (y, a);
    help: write the instances one by one
  [1]
  $ bash body.sh "buf (y, 4'b1010);"
  tdelay: netlist fault 4 OutOfSubset at line 4 (4'b1010)
  t.v:4: 4'b1010: another constant than 1'b0 and 1'b1, or a constant where a number has to be
      buf (y, 4'b1010);
    help: write 1'b0 or 1'b1 for each bit, and a number plainly
  [1]
  $ bash body.sh "not #.5 (y, a);"
  tdelay: netlist fault 4 OutOfSubset at line 4 (.)
  t.v:4: .: ports by name, or a fraction without a digit before it
      not #.5 (y, a);
    help: list the nets in order; write 0.5 for .5
  [1]
  $ bash body.sh "\`define X"
  tdelay: netlist fault 4 OutOfSubset at line 4 (`define)
  t.v:4: `define: a compiler directive other than `timescale
      `define X
    help: run a preprocessor first
  [1]
  $ bash body.sh "(* keep *) wire w; not (y, (* x *) a);"
  tdelay: netlist fault 4 OutOfSubset at line 4 ((*)
  t.v:4: (*: an attribute where none is read
      (* keep *) wire w; not (y, (* x *) a);
    help: remove it
  [1]
  $ bash body.sh "\$display;"
  tdelay: netlist fault 4 OutOfSubset at line 4 ($)
  t.v:4: $: an operator, a string or a system name
      $display;
    help: remove it, or synthesise it: see docs/FROM-RTL.md
  [1]
  $ printf 'module t(a, y);\ninput a;\noutput y;\nbuf (y, a);\nendmodule\nmodule u;\nendmodule\n' > t.v; tdelay info t.v --hints
  tdelay: netlist fault 4 OutOfSubset at line 6 (module)
  t.v:6: module: a second module
      module u;
    help: flatten the design into one module: see docs/FROM-RTL.md
  [1]

A long line is shown in part, and what a terminal doesn't show as a question mark.

  $ bash body.sh "$(printf '/* \303\244 %0120d */ assign y = a;' 7)"
  tdelay: netlist fault 4 OutOfSubset at line 4 (assign)
  t.v:4: assign: behaviour or a variable, where gate primitives have to be
      /* ?? 0000000000000000000000000000000000000000000000000000000000000000000000000000000000000000000000
    help: synthesise it to gates: see docs/FROM-RTL.md
  [1]

A loop.

  $ bash body.sh 'nand (y, a, y);'
  tdelay: circuit fault 1 Loop on y
  t.v: net y lies on a loop of gates, as in a latch or a ring oscillator
    help: cut the loop: let a gate on it read a new input in place of this net; docs/FROM-RTL.md cuts flip-flops and latches
  [1]

Words that give nothing for the inputs, and an output that there is none of.

  $ cp "$NETLISTS/c17.v" "$NETLISTS/inverter.v" .
  $ tdelay sim c17.v 0000 11111 --hints
  tdelay: bad vector FROM
  FROM: 5 characters, one for each of N1 N2 N3 N6 N7; got 4
    help: write 0, 1 or x for each, the first character for the first input
  [2]
  $ tdelay sim c17.v 00000 1111z --hints
  tdelay: bad vector TO
  TO: 5 characters, one for each of N1 N2 N3 N6 N7; character 5 is none of those allowed
    help: write 0, 1 or x for each, the first character for the first input
  [2]
  $ tdelay sim c17.v 00000 11111 --at 1,2 --hints
  tdelay: bad vector at
  --at: 5 numbers, one for each of N1 N2 N3 N6 N7
    help: write whole numbers of steps, at most 1000000000, with commas between them and no spaces
  [2]
  $ tdelay path c17.v 0 1 --hints
  tdelay: bad vector FROM
  FROM: 5 characters, one for each of N1 N2 N3 N6 N7; got 1
    help: write 0, 1 or x for each, the first character for the first input
  [2]
  $ tdelay path c17.v 00000 11111 --output N99 --hints
  tdelay: no output of this name
  --output: no output has the name N99; there are N22 N23
    help: give one of these; a bit of a vector is a[3]
  [2]
  $ tdelay bound c17.v --first 0 --hints
  tdelay: bad vector first
  --first: 5 characters, one for each of N1 N2 N3 N6 N7; got 1
    help: write 0, 1 or . (free) for each, the first character for the first input
  [2]
  $ tdelay bound c17.v --second 0000x --hints
  tdelay: bad vector second
  --second: 5 characters, one for each of N1 N2 N3 N6 N7; character 5 is none of those allowed
    help: write 0, 1 or . (free) for each, the first character for the first input
  [2]
  $ tdelay worst c17.v --hold '==' --hints
  tdelay: bad vector hold
  --hold: 5 characters, one for each of N1 N2 N3 N6 N7; got 2
    help: write = (held) or . for each, the first character for the first input
  [2]
  $ tdelay worst c17.v --first ..... --at 0,0,0,0,x --hints
  tdelay: bad vector at
  --at: 5 numbers, one for each of N1 N2 N3 N6 N7
    help: write whole numbers of steps, at most 1000000000, with commas between them and no spaces
  [2]
  $ tdelay parts c17.v --parts 2 --second 11 --hints
  tdelay: bad vector second
  --second: 5 characters, one for each of N1 N2 N3 N6 N7; got 2
    help: write 0, 1 or . (free) for each, the first character for the first input
  [2]
  $ tdelay join c17.v c17.v --first 0 --hints
  tdelay: bad vector first
  --first: 5 characters, one for each of N1 N2 N3 N6 N7; got 1
    help: write 0, 1 or . (free) for each, the first character for the first input
  [2]
  $ printf 'module t(y);\noutput y;\nbuf (y, 1'"'"'b1);\nendmodule\n' > none.v; tdelay sim none.v 0 1 --hints
  tdelay: bad vector FROM
  FROM: the word none, since there are no inputs
    help: write none in its place
  [2]
  $ tdelay worst inverter.v --first 0 --second 1 --hold = --hints
  tdelay: no admitted pair
  no pair of vectors keeps --first, --second, --hold and --flips at once
    help: loosen one of these options, or leave it out
  [1]
  $ tdelay parts inverter.v --parts 2 --first 0 --second 1 --flips 0 --hints
  tdelay: no admitted pair
  no pair of vectors keeps --first, --second, --hold and --flips at once
    help: loosen one of these options, or leave it out
  [1]

Files that can't be read or written.

  $ tdelay info absent.v --hints
  tdelay: cannot read absent.v
  absent.v: there is no file of this name
    help: look at the path, from the folder that the command runs in; - is standard input
  [5]
  $ tdelay info . --hints
  tdelay: cannot read .
  .: it is a folder
    help: look at the path, from the folder that the command runs in; - is standard input
  [5]
  $ tdelay info c17.v/x --hints
  tdelay: cannot read c17.v/x
  c17.v/x: a name on the way to it is no folder
    help: look at the path, from the folder that the command runs in; - is standard input
  [5]
  $ tdelay check c17.v absent --hints
  tdelay: cannot read absent
  absent: there is no file of this name
    help: look at the path, from the folder that the command runs in; - is standard input
  [5]
  $ tdelay join c17.v absent --hints
  tdelay: cannot read absent
  absent: there is no file of this name
    help: look at the path, from the folder that the command runs in; - is standard input
  [5]
  $ tdelay join c17.v absent --cert nowhere/c --hints
  tdelay: cannot read absent
  absent: there is no file of this name
    help: look at the path, from the folder that the command runs in; - is standard input
  [5]
  $ tdelay worst inverter.v --cert nowhere/c --hints
  unit 1 ns
  defaulted 0
  exact 3
  from 0
  to 1
  nodes 1
  nowhere/c: there is no such folder; the search goes on
  tdelay: cannot write nowhere/c
  nowhere/c: there is no such folder
    help: give another name, or make the folder first
  [5]
  $ tdelay worst inverter.v --cert . --hints
  unit 1 ns
  defaulted 0
  exact 3
  from 0
  to 1
  nodes 1
  .: it is a folder; the search goes on
  tdelay: cannot write .
  .: it is a folder
    help: give another name, or make the folder first
  [5]
  $ tdelay sim inverter.v 0 1 --vcd c17.v/x --hints
  unit 1 ns
  defaulted 0
  last y 3
  time 3
  tdelay: cannot write c17.v/x
  c17.v/x: a name on the way to it is no folder
    help: give another name, or make the folder first
  [5]
  $ tdelay worst inverter.v --cert /dev/full --hints 2>&1 | tail -n +7
  tdelay: cannot write /dev/full
  a write failed, or memory ran out: see the line above
    help: a write: look at the room on the disk (df) and at who may write there; what had the name is as it was
    help: memory: give it more, or a smaller netlist or --budget
  $ tdelay sim inverter.v 0 1 --hints > /dev/full
  tdelay: cannot write stdout
  a write failed, or memory ran out: see the line above
    help: a write: look at the room on the disk (df) and at who may write there; what had the name is as it was
    help: memory: give it more, or a smaller netlist or --budget
  [5]

A file that would be written over another.

  $ cp c17.v c.v; tdelay worst c.v --cert c.v --hints
  tdelay: c.v is c.v
  to write c.v would overwrite c.v, which this command reads or writes; nothing was done
    help: give --cert or --vcd another name
  [2]
  $ tdelay worst c.v --cert one --vcd one --hints
  tdelay: one is one
  to write one would overwrite one, which this command reads or writes; nothing was done
    help: give --cert or --vcd another name
  [2]
  $ tdelay sim c.v 0 1 --vcd ./c.v --hints
  tdelay: ./c.v is c.v
  to write ./c.v would overwrite c.v, which this command reads or writes; nothing was done
    help: give --cert or --vcd another name
  [2]

A search that is cut short.

  $ cp "$NETLISTS/adder_8.v" .; tdelay worst adder_8.v --strategy least --budget 100 --hints 2>&1 | tail -n +8
  the search used up its budget of 100 nodes and units of work; both figures are true
    help: --strategy auto, which goes on by other ways
    help: a greater --budget, at most 10000000
    help: or fewer pairs: --first, --second, --hold, --flips; or `tdelay parts`
  $ tdelay worst adder_8.v --budget 0 --strategy lead --workers 2 --hints 2>&1 | tail -n +8
  the search used up its budget of 0 nodes and units of work; both figures are true
    help: a greater --budget, at most 10000000
    help: or fewer pairs: --first, --second, --hold, --flips; or `tdelay parts`

What came from standard input or a pipe is explained too.

  $ tdelay info - --hints < two.v
  tdelay: netlist fault 11 TwoDrivers at line 5
  stdin:5: a second gate output drives net y; the first is at line 4
      buf #1 h(y,a);
    help: give the two outputs two names: there are no wired nets
  [1]
  $ tdelay info <(cat two.v) --hints 2>&1 | tail -n +3
      buf #1 h(y,a);
    help: give the two outputs two names: there are no wired nets
  $ tdelay check two.v - --hints < two.v
  tdelay: netlist fault 11 TwoDrivers at line 5
  two.v:5: a second gate output drives net y; the first is at line 4
      buf #1 h(y,a);
    help: give the two outputs two names: there are no wired nets
  [1]

Each fault of a certificate's text.

  $ printf 'tdelay-cert 1\ncircuit 1 1\n' > head; printf 'time 3\nfrom 0\nto 1\nb a 3\n' > tail
  $ cat head tail > c; echo x >> c; tdelay check inverter.v c --hints
  tdelay: certificate fault 3 Trailing at line 7
  c:7: more text after a whole certificate
    help: a file has one certificate; join makes one of several
  [1]
  $ cat head > c; tdelay check inverter.v c --hints
  tdelay: certificate fault 2 UnexpectedEnd at line 3
  c:3: the text ends before its certificate does
    help: make or fetch the certificate again: it is empty or cut off; a search that ends as between has none
  [1]
  $ sed 's/time 3/time x/' tail | cat head - > c; tdelay check inverter.v c --hints
  tdelay: certificate fault 1 Syntax at line 3
  c:3: a byte that the format doesn't allow here
    help: make or fetch the certificate again; docs/CERTIFICATE.md has the format
  [1]
  $ sed 's/time 3/time 2000000000000000000/' tail | cat head - > c; tdelay check inverter.v c --hints
  tdelay: certificate fault 4 NumberTooLarge at line 3
  c:3: a number that passes its limit
    help: make or fetch the certificate again
  [1]
  $ sed 's/1$/9/' head | cat - tail > c; tdelay check inverter.v c --hints
  tdelay: certificate fault 5 Version at line 1
  c:1: a version of certificates that this program doesn't know
    help: tdelay --version prints which it reads: take the program that made it, or a newer one
  [1]
  $ : > c; tdelay check inverter.v c --hints
  tdelay: certificate fault 2 UnexpectedEnd at line 1
  c:1: the text ends before its certificate does
    help: make or fetch the certificate again: it is empty or cut off; a search that ends as between has none
  [1]

Each verdict but for `Accepted`.

  $ cat > hint.sh <<'END'
  > # What is said of a certificate, a slash in it the end of a line.
  > printf '%b' "${2//\//\\n}" > c
  > tdelay check "$1" c --hints 2>&1
  > END
  $ printf 'module t(a, c, y); input a, c; output y;\nbuf #1 g1(d,a); or #1 g2(m,c,d); not #3 g3(k,a); and #2 g4(y,m,k); endmodule\n' > hidden.v
  $ bash hint.sh inverter.v 'tdelay-cert 1/circuit 1 1/time 2/from 0/to 1/b a 3/'
  refused 2 PairTime
  c: the delay of its pair isn't its time
    help: check it with the netlist, the default delays and the --output of its search; else search again
  [4]
  $ bash hint.sh inverter.v 'tdelay-cert 1/circuit 1 1/time 3/from 0/to 1/b a 2/'
  refused 3 LeafBound line 6
  c:6: a leaf's number is less than the bound of its cube, or isn't the delay of its pair
    help: check it with the netlist, the default delays and the --output of its search; else search again
  [4]
  $ bash hint.sh inverter.v 'tdelay-cert 1/circuit 1 1/time 3/from 0/to 1/b a 4/'
  refused 4 LeafAboveTime line 6
  c:6: a leaf's number is greater than the certificate's time, or than the number of its line high
    help: the certificate is wrong: search again
  [4]
  $ bash hint.sh inverter.v 'tdelay-cert 1/circuit 1 1/time 3/from 0/to 1/s 2/b a 3/b a 3/'
  refused 5 BadPosition line 6
  c:6: a split at a position that doesn't exist or isn't free there
    help: the certificate is wrong: search again
  [4]
  $ bash hint.sh inverter.v 'tdelay-cert 1/circuit 1 1/time 3/from 0/to 1/p 3/'
  refused 6 NotAPoint line 6
  c:6: a leaf of one pair where a bit is still free
    help: the certificate is wrong: search again
  [4]
  $ bash hint.sh inverter.v 'tdelay-cert 1/circuit 2 1/time 3/from 00/to 11/b a 3/'
  refused 7 OtherCircuit
  c: its numbers of inputs and gates, or its conditions, don't fit the circuit
    help: give the netlist that it was made for; `info` counts inputs and gates
  [4]
  $ bash hint.sh hidden.v 'tdelay-cert 2/circuit 2 4/first ../second ../hold ../flips 1/time 5/from 00/to 11/s 0/s 1/b a 3/s 2/s 3/b a 0/none/b a 5/b a 5/'
  refused 8 PairNotAdmitted
  c: its pair isn't one that its lines first, second, hold, flips and keep admit
    help: the certificate is wrong: search again
  [4]
  $ bash hint.sh hidden.v 'tdelay-cert 2/circuit 2 4/first ../second ../hold ../flips 1/time 5/from 01/to 11/s 0/s 1/none/s 2/s 3/b a 0/none/b a 5/b a 5/'
  refused 9 LeafNotEmpty line 12
  c:12: a leaf has to show that no admitted pair lies in its cube, and doesn't
    help: the certificate is wrong: search again
  [4]

  $ echo 'tdelay-cert 4/circuit 1 1/default 1 2/output all/first ./second ./hold ./flips 1/at 0/keep none/time 3/high 3/from 0/to 1/b a 3' | tr / '\n' > c
  $ tdelay check inverter.v c --default-fall 1 --hints
  refused 11 OtherQuestion line 3
  c:3: it is about other default delays, or about other outputs
    help: give the --default-rise, --default-fall and --output of its search: its line has them
  [4]

Each reason for the verdict `BadStep`.

  $ printf 'module t(a, y); input a; output y; buf #1 p(b,a); and #(1,4) g(y,a,b); endmodule\n' > early.v
  $ tdelay check inverter.v <(cat head tail) --hints
  accepted 3
  $ bash hint.sh early.v 'tdelay-cert 4/circuit 1 2/default 1 1/output all/first ./second ./hold ./flips 1/at 0/keep none/time 4/high 4/from 1/to 0/x/f 2 0/q 5/'
  refused 10 BadStep line 16
  c:16: a line with too few numbers, too many, or one that is out of range
    help: check it with the netlist, the default delays and the --output that it was made for; else make it again
  [4]
  $ bash hint.sh early.v 'tdelay-cert 4/circuit 1 2/default 1 1/output all/first ./second ./hold ./flips 1/at 0/keep none/time 4/high 4/from 1/to 0/x/f 5/q 5/'
  refused 10 BadStep line 16
  c:16: a line with too few numbers, too many, or one that is out of range
    help: check it with the netlist, the default delays and the --output that it was made for; else make it again
  [4]
  $ bash hint.sh early.v 'tdelay-cert 4/circuit 1 2/default 1 1/output all/first ./second ./hold ./flips 1/at 0/keep none/time 4/high 4/from 1/to 0/x/w 4 0 2 1/q 5/'
  refused 10 BadStep line 16
  c:16: a line with too few numbers, too many, or one that is out of range
    help: check it with the netlist, the default delays and the --output that it was made for; else make it again
  [4]
  $ bash hint.sh early.v 'tdelay-cert 4/circuit 1 2/default 1 1/output all/first ./second ./hold ./flips 1/at 0/keep none/time 4/high 4/from 1/to 0/x/c 2 0/q 5/'
  refused 10 BadStep line 16
  c:16: a line with too few numbers, too many, or one that is out of range
    help: check it with the netlist, the default delays and the --output that it was made for; else make it again
  [4]
  $ bash hint.sh early.v 'tdelay-cert 4/circuit 1 2/default 1 1/output all/first ./second ./hold ./flips 1/at 0/keep none/time 4/high 4/from 1/to 0/x/e 4 2 5 0/q 5/'
  refused 10 BadStep line 16
  c:16: a line with too few numbers, too many, or one that is out of range
    help: check it with the netlist, the default delays and the --output that it was made for; else make it again
  [4]
  $ bash hint.sh early.v 'tdelay-cert 4/circuit 1 2/default 1 1/output all/first ./second ./hold ./flips 1/at 0/keep none/time 4/high 4/from 1/to 0/x/f 2/r 4/f 3/q 5/'
  refused 10 BadStep line 18
  c:18: a variable after a step
    help: check it with the netlist, the default delays and the --output that it was made for; else make it again
  [4]
  $ bash hint.sh early.v 'tdelay-cert 4/circuit 1 2/default 1 1/output all/first ./second ./hold ./flips 1/at 0/keep none/time 4/high 4/from 1/to 0/x/f 2/g 0/q 5/'
  refused 10 BadStep line 17
  c:17: a step that doesn't hold of this circuit
    help: check it with the netlist, the default delays and the --output that it was made for; else make it again
  [4]
  $ bash hint.sh early.v 'tdelay-cert 4/circuit 1 2/default 1 1/output all/first ./second ./hold ./flips 1/at 0/keep none/time 4/high 4/from 1/to 0/x/f 2/u 0/q 5/'
  refused 10 BadStep line 17
  c:17: a step that doesn't hold of this circuit
    help: check it with the netlist, the default delays and the --output that it was made for; else make it again
  [4]
  $ bash hint.sh early.v 'tdelay-cert 4/circuit 1 2/default 1 1/output all/first ./second ./hold ./flips 1/at 0/keep none/time 4/high 4/from 1/to 0/x/f 2/u 0 1/l 1 0 1/q 5/'
  refused 10 BadStep line 18
  c:18: a step that doesn't hold of this circuit
    help: check it with the netlist, the default delays and the --output that it was made for; else make it again
  [4]
  $ bash hint.sh early.v 'tdelay-cert 4/circuit 1 2/default 1 1/output all/first ./second ./hold ./flips 1/at 0/keep none/time 4/high 4/from 1/to 0/x/q 3/'
  refused 3 LeafBound line 16
  c:16: a leaf's number is less than the bound of its cube, or isn't the delay of its pair
    help: check it with the netlist, the default delays and the --output of its search; else search again
  [4]

Each reason why certificates aren't joined.

  $ printf 'module t(a, b, y);\ninput a, b;\noutput y;\nand #2 g(y,a,b);\nendmodule\n' > and.v
  $ cat > part.sh <<'END'
  > # The text of a certificate: the circuit, the pins of both vectors, what is held, the flips, the moments if any, the time, its pair and
  > # the lines of the tree.
  > [ -z "$6" ] && version=2 || version=3
  > printf '%s\n' "tdelay-cert $version" "circuit $1" "first $2" "second $3" "hold $4" "flips $5" ${6:+"at $6"} "time $7" "from $8" "to $9" "${@:10}"
  > END
  $ bash part.sh '2 1' 0. .. .. 2 '' 3 00 11 'b a 3' > low
  > bash part.sh '2 1' 1. .. .. 2 '' 5 10 01 'b a 5' > high
  > bash part.sh '2 2' 1. .. .. 2 '' 5 10 01 'b a 5' > more_gates
  > bash part.sh '2 1' 1. .. =. 2 '' 5 10 01 'b a 5' > other_hold
  > bash part.sh '2 1' 1. .. .. 1 '' 5 10 01 'b a 5' > other_flips
  > bash part.sh '2 1' 1. .. .. 2 '0 7' 5 10 01 'b a 5' > other_moments
  > cp low again
  > bash part.sh '2 1' .0 .. .. 2 '' 5 10 01 'b a 5' > across
  > bash part.sh '2 1' 0. 1. .. 2 '' 3 00 11 'b a 3' > brick
  > bash part.sh '2 1' .1 0. .. 2 '' 5 11 01 'b a 5' > other_brick
  > bash part.sh '2 1' 10 .. .. 2 '' 5 10 01 'b a 5' > last_brick
  > bash part.sh '2 1' 1. .. .. 2 '' 0 10 10 none > empty
  $ tdelay join and.v --no-check low more_gates --hints
  tdelay: more_gates: other circuit
  more_gates: its numbers of inputs and gates, or its conditions, don't fit the circuit
    help: give the netlist that it was made for; `info` counts inputs and gates
  [4]
  $ tdelay join and.v --no-check low other_hold --hints
  tdelay: cannot join low and other_hold: other inputs held
  low and other_hold: the two are of questions with other inputs held (--hold)
    help: one of them is of another question: search it again with the options that `parts` printed
  [4]
  $ tdelay join and.v --no-check low other_flips --hints
  tdelay: cannot join low and other_flips: other flips
  low and other_flips: the two are of questions with another --flips
    help: one of them is of another question: search it again with the options that `parts` printed
  [4]
  $ tdelay join and.v --no-check low other_moments --hints
  tdelay: cannot join low and other_moments: other input times
  low and other_moments: the two are of questions with another --at
    help: one of them is of another question: search it again with the options that `parts` printed
  [4]
  $ tdelay join and.v --no-check low high --first 0. --second .. --hints
  tdelay: high: other pins
  high: its pins aren't a part of those of the whole (--first, --second)
    help: it is of another part of the pairs: leave it out, or loosen --first and --second
  [4]
  $ tdelay join and.v --no-check low high again --hints
  tdelay: cannot join low and again: a pair in both
  low and again: an admitted pair lies in both
    help: give each part once, and only parts of one call of `parts`
  [4]
  $ tdelay join and.v --no-check brick other_brick last_brick --hints
  tdelay: cannot join brick and last_brick: no position parts them
  brick and last_brick: both lie in a cube that no bit halves so that each part lies in one of the halves
    help: give only parts of one call of `parts`
  [4]
  $ tdelay join and.v --no-check low --first .. --second .. --hints
  tdelay: no part for --first 1. --second ..
  a part is missing: admitted pairs lie in no certificate
    help: search the missing part: worst with the --first and --second that the line above has, and --cert; then join all, or tell join the narrower question
  [4]
  $ tdelay join and.v --no-check low empty --hints
  tdelay: empty: a leaf without a pair
  empty: a leaf of it claims that no pair lies in its cube, but all pairs are admitted
    help: the certificate is wrong: search that part again
  [4]
  $ tdelay join and.v --no-check low high --hold-input a --hints
  tdelay: parts of another question: other inputs held
  the parts have other inputs held than join is told (--hold)
    help: give join the options about inputs that the parts were searched with
  [4]
  $ tdelay join and.v --no-check low high --flips 1 --hints
  tdelay: parts of another question: other flips
  the parts have another --flips than join is told
    help: give join the options about inputs that the parts were searched with
  [4]
  $ tdelay join and.v --no-check low high --at 0,7 --hints
  tdelay: parts of another question: other input times
  the parts have another --at than join is told
    help: give join the options about inputs that the parts were searched with
  [4]
  $ tdelay join and.v --no-check low and.v --hints
  tdelay: and.v: certificate fault 1 Syntax at line 1
  and.v:1: a byte that the format doesn't allow here
    help: make or fetch the certificate again; docs/CERTIFICATE.md has the format
  [1]
  $ tdelay join and.v low high --hints
  tdelay: low: refused 2 PairTime
  low: the delay of its pair isn't its time
    help: check it with the netlist, the default delays and the --output of its search; else search again
  [4]

A run that is done has no hint, and a bad option has the text of the command line's reader.

  $ tdelay sim inverter.v 0 1 --hints
  unit 1 ns
  defaulted 0
  last y 3
  time 3
  $ tdelay check inverter.v <(tdelay worst inverter.v --cert -) --hints
  accepted 3
  $ tdelay worst inverter.v --budgt 5 --hints
  error: unexpected argument '--budgt' found
  
    tip: a similar argument exists: '--budget'
  
  Usage: tdelay worst --budget <N> <FILE>
  
  For more information, try '--help'.
  [2]
  $ tdelay info two.v --hints --hints 2>&1 | head -1
  error: the argument '--hints' cannot be used multiple times

A word behind `--` is no option.

  $ tdelay info -- --hints
  tdelay: cannot read --hints
  [5]

A standard error that is a terminal has hints without the option, after all else. `script` makes such a terminal.

  $ cat > at_terminal.sh <<'END'
  > script -qec "$1" /dev/null < /dev/null | tr -d '\r'
  > END
  $ bash at_terminal.sh "tdelay info two.v" > seen; tdelay info two.v --hints 2>&1 | diff - seen && grep -c . seen
  4
  $ bash at_terminal.sh "tdelay sim inverter.v 0 01 > /dev/null" > seen; tdelay sim inverter.v 0 01 --hints 2>&1 | diff - seen && grep -c . seen
  3
  $ bash at_terminal.sh "tdelay info two.v 2> told"; cat told
  tdelay: netlist fault 11 TwoDrivers at line 5
  $ bash at_terminal.sh "tdelay info two.v --pin z=1 2> /dev/null"

Options with letters.

  $ tdelay worst inverter.v -j 2 -o c | tail -1; tdelay check inverter.v c; tdelay worst inverter.v -j2 -oc | tail -1
  nodes 1
  accepted 3
  nodes 1
  $ tdelay join inverter.v c -o whole | tail -1; cmp c whole; tdelay sim inverter.v 0 1 -j 2 2>&1 | head -1
  nodes 1
  error: unexpected argument '-j' found
