Conditions on settled levels in a certificate: how they are spelled, which fit, and what they refuse. Each row has what `tdelay check`
says first, a bar, and the text of a certificate behind a head, a slash in it the end of a line.

  $ cat > rows <<'END'
  > #!/usr/bin/env bash
  > # rows NETLIST HEAD: reads rows, what is said, a bar, and what stands behind the head in a certificate. Prints the rows of which
  > # `tdelay check` says something else, with that, and how many rows there were.
  > count=0
  > while IFS='|' read -r said text; do
  >   printf '%b' "${2//\//\\n}${text//\//\\n}" > c
  >   found=$(tdelay check "$1" c 2>&1 | head -n 1)
  >   found=${found#tdelay: certificate fault }
  >   [ "$found" = "$said" ] || echo "$found|$text"
  >   count=$((count + 1))
  > done
  > echo $count rows
  > END

Nets 2 and 3 are a and b, 4 to 7 are c, d, e and y.

  $ cat > slow.v <<'END'
  > module t (a, b, y);
  > input a, b;
  > output y;
  > buf #5 p (c, a);
  > and #(1,2) g (d, c, b);
  > not #1 n (e, b);
  > and #1 h (y, d, e);
  > endmodule
  > END

The spelling of conditions: a net's number and two levels, not both free, or `==`.

  $ bash rows slow.v 'tdelay-cert 4/circuit 2 4/default 1 1/output all/first ../second ../hold ../flips 2/at 0 0/keep ' <<'END'
  > refused 4 LeafAboveTime line 16|none/time 3/high 3/from 11/to 10/x/q 9/
  > refused 4 LeafAboveTime line 16|7 .0/time 3/high 3/from 11/to 10/x/q 9/
  > 1 Syntax at line 10|7 ../time 3/high 3/from 11/to 10/x/q 9/
  > 1 Syntax at line 10|7 0/time 3/high 3/from 11/to 10/x/q 9/
  > 1 Syntax at line 10|7 =./time 3/high 3/from 11/to 10/x/q 9/
  > 1 Syntax at line 10|7 .=/time 3/high 3/from 11/to 10/x/q 9/
  > 1 Syntax at line 10|7/time 3/high 3/from 11/to 10/x/q 9/
  > 1 Syntax at line 10| 7 .0/time 3/high 3/from 11/to 10/x/q 9/
  > 1 Syntax at line 10|7 .0 /time 3/high 3/from 11/to 10/x/q 9/
  > 1 Syntax at line 10|07 .0/time 3/high 3/from 11/to 10/x/q 9/
  > 1 Syntax at line 10|/time 3/high 3/from 11/to 10/x/q 9/
  > 1 Syntax at line 10|none none/time 3/high 3/from 11/to 10/x/q 9/
  > 1 Syntax at line 10|7 x0/time 3/high 3/from 11/to 10/x/q 9/
  > 4 NumberTooLarge at line 10|1000000000000000001 .0/time 3/high 3/from 11/to 10/x/q 9/
  > END
  14 rows

They rise, by the net and then by the bytes, and are on inputs and gates' outputs: 2 to 7 here.

  $ bash rows slow.v 'tdelay-cert 4/circuit 2 4/default 1 1/output all/first ../second ../hold ../flips 2/at 0 0/keep ' <<'END'
  > refused 4 LeafAboveTime line 16|3 10 7 .0/time 3/high 3/from 11/to 10/x/q 9/
  > refused 4 LeafAboveTime line 16|7 .0 7 00 7 ==/time 0/high 0/from 00/to 00/x/q 9/
  > refused 7 OtherCircuit|7 0. 7 .0/time 3/high 3/from 11/to 10/x/q 9/
  > refused 7 OtherCircuit|7 .0 7 .0/time 3/high 3/from 11/to 10/x/q 9/
  > refused 7 OtherCircuit|7 == 7 ==/time 3/high 3/from 11/to 10/x/q 9/
  > refused 7 OtherCircuit|7 .0 3 10/time 3/high 3/from 11/to 10/x/q 9/
  > refused 7 OtherCircuit|0 00/time 3/high 3/from 11/to 10/x/q 9/
  > refused 7 OtherCircuit|1 11/time 3/high 3/from 11/to 10/x/q 9/
  > refused 7 OtherCircuit|8 .0/time 3/high 3/from 11/to 10/x/q 9/
  > END
  9 rows

The pair keeps them: b goes from 1 to 0 and e, its inverse, from 0 to 1, while a stays.

  $ bash rows slow.v 'tdelay-cert 4/circuit 2 4/default 1 1/output all/first ../second ../hold ../flips 2/at 0 0/keep ' <<'END'
  > refused 8 PairNotAdmitted|3 ==/time 3/high 3/from 11/to 10/x/q 9/
  > refused 8 PairNotAdmitted|3 11/time 3/high 3/from 11/to 10/x/q 9/
  > refused 8 PairNotAdmitted|3 01/time 3/high 3/from 11/to 10/x/q 9/
  > refused 4 LeafAboveTime line 16|3 1./time 3/high 3/from 11/to 10/x/q 9/
  > refused 8 PairNotAdmitted|3 .1/time 3/high 3/from 11/to 10/x/q 9/
  > refused 4 LeafAboveTime line 16|6 01/time 3/high 3/from 11/to 10/x/q 9/
  > refused 8 PairNotAdmitted|6 10/time 3/high 3/from 11/to 10/x/q 9/
  > refused 4 LeafAboveTime line 16|2 ==/time 3/high 3/from 11/to 10/x/q 9/
  > END
  8 rows

No pair may lie in a cube that breaks one: position 3 is b's bit in `to`.

  $ bash rows slow.v 'tdelay-cert 4/circuit 2 4/default 1 1/output all/first ../second ../hold ../flips 2/at 0 0/keep ' <<'END'
  > refused 4 LeafAboveTime line 17|3 .0/time 0/high 0/from 00/to 00/s 3/x/q 9/none/
  > refused 9 LeafNotEmpty line 16|3 .0/time 0/high 0/from 00/to 00/s 3/none/none/
  > refused 4 LeafAboveTime line 18|6 ==/time 0/high 0/from 00/to 00/s 2/s 3/x/q 9/none/none/
  > refused 9 LeafNotEmpty line 17|6 ==/time 0/high 0/from 00/to 00/s 2/s 3/none/none/none/
  > END
  4 rows

A step `k` has a literal that a condition says, or two of a net that is equal before and after.

  $ bash rows slow.v 'tdelay-cert 4/circuit 2 4/default 1 1/output all/first ../second ../hold ../flips 2/at 0 0/keep ' <<'END'
  > refused 4 LeafAboveTime line 20|3 .0/time 0/high 0/from 00/to 00/x/i 3/f 3/f 2/k 3/q 9/
  > refused 10 BadStep line 19|3 .0/time 0/high 0/from 00/to 00/x/i 3/f 3/f 2/k 2/q 9/
  > refused 10 BadStep line 19|3 .0/time 0/high 0/from 00/to 00/x/i 3/f 3/f 2/k 1/q 9/
  > refused 10 BadStep line 19|3 .0/time 0/high 0/from 00/to 00/x/i 3/f 3/f 2/k 5/q 9/
  > refused 10 BadStep line 19|3 .0/time 0/high 0/from 00/to 00/x/i 3/f 3/f 2/k/q 9/
  > refused 10 BadStep line 19|3 .0/time 0/high 0/from 00/to 00/x/i 3/f 3/f 2/k 3 3/q 9/
  > refused 4 LeafAboveTime line 20|3 0./time 0/high 0/from 00/to 00/x/i 3/f 3/f 2/k 1/q 9/
  > refused 10 BadStep line 19|3 0./time 0/high 0/from 00/to 00/x/i 3/f 3/f 2/k 3/q 9/
  > refused 4 LeafAboveTime line 21|3 ==/time 0/high 0/from 00/to 00/x/i 3/f 3/f 2/i 2/k 0 3/q 9/
  > refused 4 LeafAboveTime line 21|3 ==/time 0/high 0/from 00/to 00/x/i 3/f 3/f 2/i 2/k 1 2/q 9/
  > refused 10 BadStep line 20|3 ==/time 0/high 0/from 00/to 00/x/i 3/f 3/f 2/i 2/k 2 1/q 9/
  > refused 10 BadStep line 20|3 ==/time 0/high 0/from 00/to 00/x/i 3/f 3/f 2/i 2/k 0 2/q 9/
  > refused 10 BadStep line 20|3 ==/time 0/high 0/from 00/to 00/x/i 3/f 3/f 2/i 2/k 6 3/q 9/
  > refused 10 BadStep line 20|3 ==/time 0/high 0/from 00/to 00/x/i 3/f 3/f 2/i 2/k 0 5/q 9/
  > refused 10 BadStep line 20|3 ==/time 0/high 0/from 00/to 00/x/i 3/f 3/f 2/i 2/k 0/q 9/
  > END
  15 rows

Where no pair keeps them, a certificate may claim that no pair is admitted. Each leaf has to say so of its cube then: it is `none`, or its
last clause is empty. A leaf with a number doesn't say so, and a pair can't be claimed.

  $ bash rows slow.v 'tdelay-cert 4/circuit 2 4/default 1 1/output all/first ../second ../hold ../flips 2/at 0 0/keep 7 .1/' <<'END'
  > accepted none|time none/x/f 3/f 5/f 6/f 7/k 6/t 7 2/t 7 4/t 3 0/t 5 1/l 0 0 1 2 3 4/q none/
  > accepted none|time none/s 3/x/f 3/f 5/f 6/f 7/k 6/t 7 2/t 7 4/t 3 0/t 5 1/l 0 0 1 2 3 4/q none/x/f 3/f 5/f 6/f 7/k 6/t 7 2/t 7 4/t 3 0/t 5 1/l 0 0 1 2 3 4/q none/
  > refused 9 LeafNotEmpty line 22|time none/x/f 3/f 5/f 6/f 7/k 6/t 7 2/t 7 4/t 3 0/t 5 1/q none/
  > refused 9 LeafNotEmpty line 24|time none/x/f 3/f 5/f 6/f 7/k 6/t 7 2/t 7 4/t 3 0/t 5 1/l 0 0 1 2 3 4/l 1 0 0 1 2 3 4/q none/
  > refused 9 LeafNotEmpty line 13|time none/x/q none/
  > refused 9 LeafNotEmpty line 23|time none/x/f 3/f 5/f 6/f 7/k 6/t 7 2/t 7 4/t 3 0/t 5 1/l 0 0 1 2 3 4/q 9/
  > refused 10 BadStep line 22|time none/x/f 3/f 5/f 6/f 7/k 6/t 7 2/t 7 4/t 3 0/t 5 1/l 0 0 1 2 3/q none/
  > refused 9 LeafNotEmpty line 12|time none/b e 8/
  > refused 9 LeafNotEmpty line 12|time none/b e 0/
  > refused 9 LeafNotEmpty line 12|time none/p 0/
  > refused 9 LeafNotEmpty line 12|time none/none/
  > refused 5 BadPosition line 12|time none/s 4/none/none/
  > refused 9 LeafNotEmpty line 14|time none/s 3/none/b a 9/
  > refused 8 PairNotAdmitted|time 3/high 3/from 11/to 10/x/f 3/f 5/f 6/f 7/k 6/t 7 2/t 7 4/t 3 0/t 5 1/l 0 0 1 2 3 4/q none/
  > END
  14 rows
  $ bash rows slow.v 'tdelay-cert 4/circuit 2 4/default 1 1/output all/first ../second ../hold ../flips 2/at 0 0/keep ' <<'END'
  > accepted none|3 .0 3 .1/time none/s 3/none/none/
  > accepted none|3 .0 3 .1/time none/x/f 3/k 0/k 1/l 0 0 1/q none/
  > refused 9 LeafNotEmpty line 12|3 .0 3 .1/time none/none/
  > refused 9 LeafNotEmpty line 13|3 .0/time none/s 3/none/none/
  > refused 10 BadStep line 15|3 .0/time none/x/f 3/k 1/k 0/l 0 0 1/q none/
  > accepted 3|3 .0/time 3/high 3/from 11/to 10/s 3/b e 3/x/f 3/k 1/u 0/l 0 0 1/q none/
  > refused 9 LeafNotEmpty line 21|3 .0/time 3/high 3/from 11/to 10/s 3/b e 3/x/f 3/k 1/u 0/q none/
  > END
  7 rows

What is accepted is said with its conditions: b ends at 0, d keeps its level, and y stays at 0. Steps show that nothing changes y then.

  $ printf '%b' 'tdelay-cert 4\ncircuit 2 4\ndefault 1 1\noutput 0\nfirst ..\nsecond .0\nhold ..\nflips 2\nat 0 0\nkeep 3 .0 5 == 7 00\ntime 0\nhigh 0\nfrom 01\nto 10\nx\nf 3\nw 5 0 0\ni 5\nf 5\ni 3\ni 4\nw 7 0 0\nt 4 9 11\nu 1\nt 7 0\nl 1 7 1 2\nk 5 6\nl 1 5 3 4\ng 12 3\ng 2 10 0\ng 2 8 0\nl 1 2 1 5 7 8 0\nl 1 12 9 6\ne 7 0 1 1 12 10\ne 7 1 1 1 12 10\nq 0\n' > c; tdelay check slow.v c --output y
  accepted 0
  output 0
  second .0
  keep 3 .0 5 == 7 00
  $ sed -i 's/^keep .*/keep 3 .0 7 00/' c; tdelay check slow.v c --output y
  refused 10 BadStep line 27
  [4]

That no pair is admitted, too, and ends with status 0.

  $ printf '%b' 'tdelay-cert 4\ncircuit 2 4\ndefault 1 1\noutput all\nfirst ..\nsecond .1\nhold ..\nflips 2\nat 0 0\nkeep 3 .0\ntime none\nnone\n' > c; tdelay check slow.v c
  accepted none
  second .1
  keep 3 .0
