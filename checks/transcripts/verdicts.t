The verdicts on certificates of worked circuits. Each row has what `tdelay check` says first, a bar, and the text of a certificate behind
a head that the rows of a table have in common, a slash in it the end of a line.

  $ cat > rows <<'END'
  > #!/usr/bin/env bash
  > # rows NETLIST HEAD: reads rows, a verdict, a bar, and what stands behind the head in a certificate. Prints the rows of which `tdelay check`
  > # says something else, with that, and how many rows there were.
  > count=0
  > while IFS='|' read -r said text; do
  >   printf '%b' "${2//\//\\n}${text//\//\\n}" > c
  >   found=$(tdelay check "$1" c 2>&1 | head -n 1)
  >   [ "$found" = "$said" ] || echo "$found|$text"
  >   count=$((count + 1))
  > done
  > echo $count rows
  > END

Trees of an inverter with rise delay 2 and fall delay 3.

  $ cat > inverter.v <<'END'
  > module t(y, a); output y; input a; not #(2,3) g(y,a); endmodule
  > END
  $ bash rows inverter.v 'tdelay-cert 1/circuit 1 1/time 3/from 0/to 1/' <<'END'
  > accepted 3|b a 3/
  > accepted 3|b m 3/
  > accepted 3|s 0/s 1/p 0/p 3/s 1/p 2/p 0/
  > accepted 3|s 1/s 0/b t 0/b t 2/b a 3/
  > refused 3 LeafBound line 6|b a 2/
  > refused 3 LeafBound line 6|b t 3/
  > refused 4 LeafAboveTime line 6|b a 4/
  > refused 6 NotAPoint line 6|p 3/
  > refused 5 BadPosition line 6|s 2/b a 3/b a 3/
  > refused 3 LeafBound line 11|s 0/s 1/p 0/p 3/s 1/p 3/p 0/
  > END
  10 rows

Trees of a pulse of 1 at a gate with delay 2.

  $ cat > lost.v <<'END'
  > module t(y, a); output y; input a; not #1 n(b,a); and #2 g(y,a,b); endmodule
  > END
  $ bash rows lost.v 'tdelay-cert 1/circuit 1 2/time 0/from 0/to 1/' <<'END'
  > accepted 0|s 0/s 1/b a 0/b a 0/s 1/b a 0/b a 0/
  > refused 5 BadPosition line 7|s 0/s 0/b a 0/b a 0/s 1/b a 0/b a 0/
  > refused 5 BadPosition line 10|s 0/s 1/b a 0/b a 0/s 0/b a 0/b a 0/
  > refused 4 LeafAboveTime line 9|s 0/s 1/b a 0/b a 1/s 1/b a 0/b a 0/
  > refused 3 LeafBound line 11|s 0/s 1/b a 0/b a 0/s 1/p 1/b a 0/
  > refused 4 LeafAboveTime line 12|s 0/s 1/b a 0/b a 0/s 1/b a 0/b m 1/
  > refused 3 LeafBound line 7|s 0/b a 0/b a 0/
  > END
  7 rows

Heads: another time, the pair the other way round, and other circuits.

  $ bash rows inverter.v '' <<'END'
  > refused 2 PairTime|tdelay-cert 1/circuit 1 1/time 2/from 0/to 1/b a 3/
  > refused 2 PairTime|tdelay-cert 1/circuit 1 1/time 3/from 1/to 0/b a 3/
  > refused 7 OtherCircuit|tdelay-cert 1/circuit 1 2/time 3/from 0/to 1/b a 3/
  > refused 7 OtherCircuit|tdelay-cert 1/circuit 2 1/time 3/from 00/to 11/b a 3/
  > END
  4 rows
  $ bash rows lost.v '' <<'END'
  > refused 7 OtherCircuit|tdelay-cert 1/circuit 1 1/time 3/from 0/to 1/b a 3/
  > END
  1 rows

A pulse that two inputs share, and pairs that differ at one of them. The pair is looked at before its time, and both behind the circuit.

  $ cat > hidden.v <<'END'
  > module t(a, c, y); input a, c; output y;
  > buf #1 g1(d,a); or #1 g2(m,c,d); not #3 g3(k,a); and #2 g4(y,m,k); endmodule
  > END
  $ bash rows hidden.v 'tdelay-cert 2/circuit ' <<'END'
  > accepted 5|2 4/first ../second ../hold ../flips 1/time 5/from 01/to 11/s 0/s 1/b a 3/s 2/s 3/b a 0/none/b a 5/b a 5/
  > refused 8 PairNotAdmitted|2 4/first ../second ../hold ../flips 1/time 5/from 00/to 11/s 0/s 1/b a 3/s 2/s 3/b a 0/none/b a 5/b a 5/
  > refused 8 PairNotAdmitted|2 4/first ../second ../hold ../flips 1/time 4/from 00/to 11/s 0/s 1/b a 3/s 2/s 3/b a 0/none/b a 5/b a 5/
  > refused 2 PairTime|2 4/first ../second ../hold ../flips 1/time 4/from 01/to 11/s 0/s 1/b a 3/s 2/s 3/b a 0/none/b a 5/b a 5/
  > refused 9 LeafNotEmpty line 12|2 4/first ../second ../hold ../flips 1/time 5/from 01/to 11/s 0/s 1/none/s 2/s 3/b a 0/none/b a 5/b a 5/
  > refused 5 BadPosition line 11|2 4/first ../second ../hold ../flips 1/time 5/from 01/to 11/s 0/s 0/none/s 2/s 3/b a 0/none/b a 5/b a 5/
  > refused 3 LeafBound line 12|2 4/first ../second ../hold ../flips 1/time 5/from 01/to 11/s 0/s 1/b a 2/s 2/s 3/b a 0/none/b a 5/b a 5/
  > refused 7 OtherCircuit|2 3/first ../second ../hold ../flips 1/time 5/from 00/to 11/s 0/s 1/b a 3/s 2/s 3/b a 0/none/b a 5/b a 5/
  > refused 8 PairNotAdmitted|2 4/first ../second ../hold =./flips 1/time 5/from 01/to 11/s 0/s 1/b a 3/s 2/s 3/b a 0/none/b a 5/b a 5/
  > refused 8 PairNotAdmitted|2 4/first .0/second ../hold ../flips 1/time 5/from 01/to 11/s 0/s 1/b a 3/s 2/s 3/b a 0/none/b a 5/b a 5/
  > END
  10 rows
  $ bash rows hidden.v 'tdelay-cert 2/circuit ' <<'END'
  > refused 9 LeafNotEmpty line 15|2 4/first ../second ../hold ../flips 1/time 5/from 01/to 11/s 0/s 1/b a 3/s 2/s 3/none/none/b a 5/b a 5/
  > END
  1 rows

A pulse of 1 at a gate with delay 1, of an input that changes later.

  $ cat > equal.v <<'END'
  > module t(y, a); output y; input a; not #1 n(b,a); and #1 g(y,a,b); endmodule
  > END
  $ bash rows equal.v 'tdelay-cert 3/circuit 1 2/first ./second ./hold ./flips 1/' <<'END'
  > accepted 9|at 7/time 9/from 0/to 1/b a 9/
  > refused 2 PairTime|at 6/time 9/from 0/to 1/b a 9/
  > refused 2 PairTime|at 8/time 9/from 0/to 1/b a 9/
  > refused 3 LeafBound line 11|at 7/time 9/from 0/to 1/b a 8/
  > accepted 1000000002|at 1000000000/time 1000000002/from 0/to 1/b a 1000000002/
  > END
  5 rows

Two inverters: a change of the input to either level is one of the output to the same, which takes 6. By arrivals each inverter may take
5, by edges one of the two takes 1.

  $ cat > buffer.v <<'END'
  > module t(y, a); output y; input a; not #(1,5) n(b,a); not #(1,5) g(y,b); endmodule
  > END
  $ bash rows buffer.v 'tdelay-cert ' <<'END'
  > accepted 6|4/circuit 1 2/default 1 1/output all/first ./second ./hold ./flips 1/at 0/keep none/time 6/high 6/from 0/to 1/b e 6/
  > accepted 6|4/circuit 1 2/default 1 1/output all/first ./second ./hold ./flips 1/at 0/keep none/time 6/high 6/from 0/to 1/b n 6/
  > accepted 13|4/circuit 1 2/default 1 1/output all/first ./second ./hold ./flips 1/at 7/keep none/time 13/high 13/from 0/to 1/b e 13/
  > accepted 0|4/circuit 1 2/default 1 1/output all/first ./second ./hold ./flips 0/at 0/keep none/time 0/high 0/from 0/to 0/s 0/s 1/b e 0/none/s 1/none/b n 0/
  > refused 3 LeafBound line 15|4/circuit 1 2/default 1 1/output all/first ./second ./hold ./flips 1/at 0/keep none/time 6/high 6/from 0/to 1/b e 5/
  > refused 3 LeafBound line 15|4/circuit 1 2/default 1 1/output all/first ./second ./hold ./flips 1/at 0/keep none/time 6/high 6/from 0/to 1/b n 5/
  > refused 4 LeafAboveTime line 15|4/circuit 1 2/default 1 1/output all/first ./second ./hold ./flips 1/at 0/keep none/time 6/high 6/from 0/to 1/b e 7/
  > refused 3 LeafBound line 17|4/circuit 1 2/default 1 1/output all/first ./second ./hold ./flips 1/at 0/keep none/time 6/high 6/from 0/to 1/s 0/b e 6/b a 6/
  > refused 9 LeafNotEmpty line 17|4/circuit 1 2/default 1 1/output all/first ./second ./hold ./flips 1/at 0/keep none/time 6/high 6/from 0/to 1/s 0/b e 6/none/
  > refused 5 BadPosition line 16|4/circuit 1 2/default 1 1/output all/first ./second ./hold ./flips 1/at 0/keep none/time 6/high 6/from 0/to 1/s 0/s 0/b e 6/b e 6/b e 6/
  > refused 2 PairTime|4/circuit 1 2/default 1 1/output all/first ./second ./hold ./flips 1/at 0/keep none/time 7/high 7/from 0/to 1/b e 7/
  > refused 8 PairNotAdmitted|4/circuit 1 2/default 1 1/output all/first 1/second ./hold ./flips 1/at 0/keep none/time 6/high 6/from 0/to 1/b e 6/
  > refused 7 OtherCircuit|4/circuit 0 2/default 1 1/output all/first none/second none/hold none/flips 0/at none/keep none/time 0/high 0/from none/to none/b e 0/
  > refused 3 LeafBound line 6|1/circuit 1 2/time 6/from 0/to 1/b a 6/
  > END
  14 rows

A gate of constants, without an input.

  $ cat > constant.v <<'END'
  > module t (y); output y; and #1 g(y,1'b1,1'b1); endmodule
  > END
  $ bash rows constant.v 'tdelay-cert 4/' <<'END'
  > accepted 0|circuit 0 1/default 1 1/output all/first none/second none/hold none/flips 0/at none/keep none/time 0/high 0/from none/to none/b e 0/
  > refused 4 LeafAboveTime line 15|circuit 0 1/default 1 1/output all/first none/second none/hold none/flips 0/at none/keep none/time 0/high 0/from none/to none/b n 1/
  > END
  2 rows

What is accepted is said with the question, which a certificate of all pairs with all inputs at 0 hasn't.

  $ printf '%b' 'tdelay-cert 2\ncircuit 2 4\nfirst ..\nsecond ..\nhold ..\nflips 1\ntime 5\nfrom 01\nto 11\ns 0\ns 1\nb a 3\ns 2\ns 3\nb a 0\nnone\nb a 5\nb a 5\n' > c; tdelay check hidden.v c
  accepted 5
  first ..
  second ..
  hold ..
  flips 1
  $ printf '%b' 'tdelay-cert 2\ncircuit 1 1\nfirst .\nsecond .\nhold .\nflips 0\ntime 0\nfrom 0\nto 0\ns 0\ns 1\nb a 0\nnone\ns 1\nnone\nb a 0\n' > c; tdelay check inverter.v c
  accepted 0
  first .
  second .
  hold .
  flips 0
  $ printf '%b' 'tdelay-cert 3\ncircuit 1 2\nfirst .\nsecond 1\nhold .\nflips 1\nat 7\ntime 9\nfrom 0\nto 1\nb a 9\n' > c; tdelay check equal.v c
  accepted 9
  first .
  second 1
  hold .
  flips 1
  at 7
  $ printf '%b' 'tdelay-cert 1\ncircuit 1 1\ntime 3\nfrom 0\nto 1\nb a 3\n' > c; tdelay check inverter.v c
  accepted 3

A refused one has one line, on standard output too.

  $ printf '%b' 'tdelay-cert 3\ncircuit 1 2\nfirst .\nsecond 1\nhold .\nflips 1\nat 6\ntime 9\nfrom 0\nto 1\nb a 9\n' > c; tdelay check equal.v c 2>&-
  refused 2 PairTime
  [4]

Trees as a search by plain arrival windows alone makes them, of a pulse that is lost and of a slow arm: the other bounds are never
above its own.

  $ bash rows lost.v 'tdelay-cert 1/circuit 1 2/time 0/from 0/to 1/' <<'END'
  > accepted 0|s 0/s 1/b a 0/p 0/s 1/p 0/b a 0/
  > END
  1 rows
  $ echo 'module t(a, b, y); input a, b; output y; buf #4 s(t,a); or #1 g(y,b,t); endmodule' > slow.v
  $ bash rows slow.v 'tdelay-cert 1/circuit 2 2/time 5/from 00/to 10/' <<'END'
  > accepted 5|s 0/s 1/b a 1/s 2/s 3/b a 5/b a 5/b a 5/b a 5/
  > END
  1 rows
