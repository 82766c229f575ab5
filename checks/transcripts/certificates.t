What is wrong with the text of a certificate. Each row has the fault and its line, a bar, and the text, a slash in it the end of a line.
`read` is a text of which a verdict is told.

  $ cat > inverter.v <<'END'
  > module t(y, a); output y; input a; not #(2,3) g(y,a); endmodule
  > END
  $ cat > rows <<'END'
  > #!/usr/bin/env bash
  > # Reads rows: what `tdelay check` says of a certificate's text, a bar, and the text, a slash in it the end of a line. Prints the rows of
  > # which it says something else, with that, and how many rows there were.
  > count=0
  > while IFS='|' read -r said text; do
  >   printf '%b' "${text//\//\\n}" > c
  >   found=$(tdelay check inverter.v c 2>&1 > verdict)
  >   [ -s verdict ] && found=read
  >   found=${found#tdelay: certificate fault }
  >   [ "$found" = "$said" ] || echo "$found|$text"
  >   count=$((count + 1))
  > done
  > echo $count rows
  > END

The first line.

  $ bash rows <<'END'
  > 5 Version at line 1|tdelay-cert 9
  > 5 Version at line 1|tdelay-cert 9/
  > 5 Version at line 1|tdelay-cert 6/circuit 1 1/
  > 5 Version at line 1|tdelay-cert 20/
  > 5 Version at line 1|tdelay-cert 6x
  > 5 Version at line 1|tdelay-cert 5x
  > 5 Version at line 1|tdelay-cert 0
  > 5 Version at line 1|tdelay-cert 10/
  > 5 Version at line 1|tdelay-cert 12
  > 1 Syntax at line 1|tdelay-cert 2x
  > 1 Syntax at line 1|tdelay-cert 4x
  > 5 Version at line 1|tdelay-cert 0x
  > 5 Version at line 1|tdelay-cert 1000000000000000000
  > 4 NumberTooLarge at line 1|tdelay-cert 1000000000000000001
  > 4 NumberTooLarge at line 1|tdelay-cert 99999999999999999999999/
  > 4 NumberTooLarge at line 1|tdelay-cert 10000000000000000000000
  > 1 Syntax at line 1|tdelay-cert 01
  > 1 Syntax at line 1|tdelay-cert 09999999999999999999/
  > 1 Syntax at line 1|tdelay-cert 00/
  > 1 Syntax at line 1|tdelay-cert 1x/
  > 1 Syntax at line 1|tdelay-cert 1\r/
  > 1 Syntax at line 1|tdelay-cert 1 /
  > 1 Syntax at line 1|tdelay-cert x/
  > 1 Syntax at line 1|tdelay-cert /
  > 1 Syntax at line 1|tdelay-cert/
  > 1 Syntax at line 1|tdelay-cert  9/
  > 1 Syntax at line 1|Tdelay-cert 9/
  > 1 Syntax at line 1|\x20tdelay-cert 1/
  > 1 Syntax at line 1|/tdelay-cert 1/
  > 2 UnexpectedEnd at line 1|
  > 2 UnexpectedEnd at line 1|t
  > 2 UnexpectedEnd at line 1|tdelay-cert
  > 2 UnexpectedEnd at line 1|tdelay-cert\x20
  > 2 UnexpectedEnd at line 1|tdelay-cert 1
  > 2 UnexpectedEnd at line 1|tdelay-cert 2
  > 2 UnexpectedEnd at line 1|tdelay-cert 3
  > 2 UnexpectedEnd at line 1|tdelay-cert 4
  > END
  37 rows

The lines behind it.

  $ bash rows <<'END'
  > 2 UnexpectedEnd at line 2|tdelay-cert 1/circuit 4096
  > 4 NumberTooLarge at line 2|tdelay-cert 1/circuit 4097
  > 4 NumberTooLarge at line 2|tdelay-cert 1/circuit 40960 1/
  > 2 UnexpectedEnd at line 2|tdelay-cert 1/circuit 1 200000
  > 4 NumberTooLarge at line 2|tdelay-cert 1/circuit 1 200001/
  > 1 Syntax at line 2|tdelay-cert 1/circuit 01 1/
  > 1 Syntax at line 2|tdelay-cert 1/circuit  1/
  > 1 Syntax at line 2|tdelay-cert 1/circuit 1  1/
  > 1 Syntax at line 2|tdelay-cert 1/circuit 1/
  > 1 Syntax at line 2|tdelay-cert 1/circuit -1 1/
  > 1 Syntax at line 3|tdelay-cert 1/circuit 1 1//
  > 1 Syntax at line 3|tdelay-cert 1/circuit 1 1/time 03/
  > 2 UnexpectedEnd at line 3|tdelay-cert 1/circuit 1 1/time 1000000000000000000
  > 4 NumberTooLarge at line 3|tdelay-cert 1/circuit 1 1/time 1000000000000000001/
  > 1 Syntax at line 3|tdelay-cert 1/circuit 1 1/time 3 /
  > 1 Syntax at line 4|tdelay-cert 1/circuit 0 0/time 0/from 0/
  > 1 Syntax at line 4|tdelay-cert 1/circuit 1 1/time 3/from none/
  > 1 Syntax at line 4|tdelay-cert 1/circuit 1 1/time 3/from x/
  > 1 Syntax at line 4|tdelay-cert 1/circuit 2 1/time 3/from 0/
  > 1 Syntax at line 5|tdelay-cert 1/circuit 1 1/time 3/from 0/to 11/
  > 1 Syntax at line 6|tdelay-cert 1/circuit 1 1/time 3/from 0/to 1/b x 3/
  > 1 Syntax at line 6|tdelay-cert 1/circuit 1 1/time 3/from 0/to 1/none/
  > 1 Syntax at line 6|tdelay-cert 1/circuit 1 1/time 3/from 0/to 1/b a 03/
  > 4 NumberTooLarge at line 6|tdelay-cert 1/circuit 1 1/time 3/from 0/to 1/b a 1000000000000000001
  > 3 Trailing at line 7|tdelay-cert 1/circuit 1 1/time 3/from 0/to 1/b a 3/b a 0/
  > 3 Trailing at line 7|tdelay-cert 1/circuit 1 1/time 3/from 0/to 1/b a 3//
  > END
  26 rows

A question. All pairs are admitted where the first version would say so, and a moment that isn't 0 is due in the third.

  $ bash rows <<'END'
  > 1 Syntax at line 2|tdelay-cert 2/circuit 0
  > 1 Syntax at line 2|tdelay-cert 3/circuit 0 1/
  > 2 UnexpectedEnd at line 2|tdelay-cert 2/circuit\x20
  > 4 NumberTooLarge at line 2|tdelay-cert 2/circuit 4097
  > 4 NumberTooLarge at line 2|tdelay-cert 2/circuit 1 200001
  > 1 Syntax at line 3|tdelay-cert 2/circuit 1 1/time
  > 2 UnexpectedEnd at line 3|tdelay-cert 2/circuit 1 1/first .
  > 1 Syntax at line 3|tdelay-cert 2/circuit 1 1/first x
  > 1 Syntax at line 3|tdelay-cert 2/circuit 1 1/first ..
  > 1 Syntax at line 3|tdelay-cert 2/circuit 2 1/first ./
  > 1 Syntax at line 3|tdelay-cert 2/circuit 1 1/first none/
  > 1 Syntax at line 4|tdelay-cert 2/circuit 1 1/first ./second =
  > 1 Syntax at line 5|tdelay-cert 2/circuit 1 1/first ./second ./hold 0
  > 2 UnexpectedEnd at line 6|tdelay-cert 2/circuit 1 1/first ./second ./hold ./flips\x20
  > 1 Syntax at line 6|tdelay-cert 2/circuit 1 1/first ./second ./hold ./flips 1
  > 2 UnexpectedEnd at line 6|tdelay-cert 2/circuit 12 1/first ............/second ............/hold ............/flips 1
  > 1 Syntax at line 6|tdelay-cert 2/circuit 12 1/first ............/second ............/hold ............/flips 12
  > 2 UnexpectedEnd at line 7|tdelay-cert 2/circuit 12 1/first ............/second ............/hold ............/flips 11/
  > 2 UnexpectedEnd at line 6|tdelay-cert 2/circuit 1 1/first 0/second ./hold ./flips 1
  > 2 UnexpectedEnd at line 7|tdelay-cert 2/circuit 1 1/first ./second ./hold =/flips 1/
  > 1 Syntax at line 6|tdelay-cert 2/circuit 1 1/first 0/second ./hold ./flips 2
  > 1 Syntax at line 6|tdelay-cert 2/circuit 1 1/first 0/second ./hold ./flips 00
  > 1 Syntax at line 6|tdelay-cert 2/circuit 1 1/first 0/second ./hold ./flips 1000000000000000001
  > 1 Syntax at line 7|tdelay-cert 2/circuit 1 1/first 0/second ./hold ./flips 1/at 1/
  > 1 Syntax at line 7|tdelay-cert 3/circuit 1 1/first ./second ./hold ./flips 1/time 1/
  > 2 UnexpectedEnd at line 7|tdelay-cert 3/circuit 1 1/first ./second ./hold ./flips 1/at\x20
  > 1 Syntax at line 7|tdelay-cert 3/circuit 1 1/first ./second ./hold ./flips 1/at 0
  > 2 UnexpectedEnd at line 7|tdelay-cert 3/circuit 2 1/first ../second ../hold ../flips 1/at 0\x20
  > 1 Syntax at line 7|tdelay-cert 3/circuit 2 1/first ../second ../hold ../flips 1/at 0 0
  > 2 UnexpectedEnd at line 8|tdelay-cert 3/circuit 2 1/first ../second ../hold ../flips 1/at 1 0/
  > 1 Syntax at line 7|tdelay-cert 3/circuit 2 1/first ../second ../hold ../flips 1/at 1/
  > 1 Syntax at line 7|tdelay-cert 3/circuit 1 1/first ./second ./hold ./flips 1/at 1 1/
  > 1 Syntax at line 7|tdelay-cert 3/circuit 1 1/first ./second ./hold ./flips 1/at 01/
  > 2 UnexpectedEnd at line 7|tdelay-cert 3/circuit 1 1/first ./second ./hold ./flips 1/at 1000000000
  > 1 Syntax at line 7|tdelay-cert 3/circuit 1 1/first ./second ./hold ./flips 1/at 1000000001
  > 1 Syntax at line 7|tdelay-cert 3/circuit 1 1/first ./second ./hold ./flips 1/at 9999999999999999999
  > 3 Trailing at line 11|tdelay-cert 2/circuit 1 1/first ./second ./hold =/flips 1/time 0/from 0/to 0/none/none/
  > END
  37 rows

The fourth version tells the default delays, the outputs and the bound too, and it alone has leaves by edges and by spans. A text of a
draft of it is none.

  $ bash rows <<'END'
  > 1 Syntax at line 6|tdelay-cert 1/circuit 1 1/time 3/from 0/to 1/b e
  > 1 Syntax at line 6|tdelay-cert 1/circuit 1 1/time 3/from 0/to 1/b n
  > 1 Syntax at line 10|tdelay-cert 2/circuit 1 1/first ./second ./hold ./flips 0/time 0/from 0/to 0/b e
  > 1 Syntax at line 11|tdelay-cert 3/circuit 1 1/first ./second ./hold ./flips 1/at 7/time 3/from 0/to 1/b n
  > 5 Version at line 1|tdelay-cert 5/circuit 1 1/first ./second ./hold ./flips 1/at 0/time 3/from 0/to 1/x/q 3/
  > 1 Syntax at line 3|tdelay-cert 4/circuit 1 1/first ./second ./hold ./flips 1/at 0/time 3/from 0/to 1/b e 3/
  > 1 Syntax at line 3|tdelay-cert 4/circuit 1 1/time
  > 2 UnexpectedEnd at line 2|tdelay-cert 4/circuit 0\x20
  > 2 UnexpectedEnd at line 3|tdelay-cert 4/circuit 1 1/default\x20
  > 1 Syntax at line 3|tdelay-cert 4/circuit 1 1/default 0
  > 1 Syntax at line 3|tdelay-cert 4/circuit 1 1/default 01 1/
  > 2 UnexpectedEnd at line 3|tdelay-cert 4/circuit 1 1/default 1000000000
  > 1 Syntax at line 3|tdelay-cert 4/circuit 1 1/default 1000000001
  > 1 Syntax at line 3|tdelay-cert 4/circuit 1 1/default 1/
  > 1 Syntax at line 3|tdelay-cert 4/circuit 1 1/default 1 0
  > 1 Syntax at line 3|tdelay-cert 4/circuit 1 1/default 1 1 1/
  > 2 UnexpectedEnd at line 4|tdelay-cert 4/circuit 1 1/default 1000000000 1000000000/
  > 1 Syntax at line 4|tdelay-cert 4/circuit 1 1/default 1 1/first
  > 2 UnexpectedEnd at line 4|tdelay-cert 4/circuit 1 1/default 1 1/output a
  > 1 Syntax at line 4|tdelay-cert 4/circuit 1 1/default 1 1/output al1
  > 1 Syntax at line 4|tdelay-cert 4/circuit 1 1/default 1 1/output none/
  > 1 Syntax at line 4|tdelay-cert 4/circuit 1 1/default 1 1/output /
  > 2 UnexpectedEnd at line 4|tdelay-cert 4/circuit 1 1/default 1 1/output 0
  > 1 Syntax at line 4|tdelay-cert 4/circuit 1 1/default 1 1/output 00
  > 1 Syntax at line 4|tdelay-cert 4/circuit 1 1/default 1 1/output 0  1/
  > 1 Syntax at line 4|tdelay-cert 4/circuit 1 1/default 1 1/output 0 /
  > 4 NumberTooLarge at line 4|tdelay-cert 4/circuit 1 1/default 1 1/output 1000000000000000001
  > 2 UnexpectedEnd at line 5|tdelay-cert 4/circuit 1 1/default 1 1/output 7 0 7/
  > 1 Syntax at line 5|tdelay-cert 4/circuit 1 1/default 1 1/output all/first none
  > 1 Syntax at line 8|tdelay-cert 4/circuit 1 1/default 1 1/output all/first ./second ./hold ./flips 2
  > 2 UnexpectedEnd at line 9|tdelay-cert 4/circuit 1 1/default 1 1/output all/first ./second ./hold ./flips 1/at 0
  > 1 Syntax at line 9|tdelay-cert 4/circuit 1 1/default 1 1/output all/first ./second ./hold ./flips 1/at none
  > 1 Syntax at line 10|tdelay-cert 4/circuit 1 1/default 1 1/output all/first ./second ./hold ./flips 1/at 0/time
  > 2 UnexpectedEnd at line 10|tdelay-cert 4/circuit 1 1/default 1 1/output all/first ./second ./hold ./flips 1/at 0/keep n
  > 1 Syntax at line 10|tdelay-cert 4/circuit 1 1/default 1 1/output all/first ./second ./hold ./flips 1/at 0/keep 3 ../
  > 1 Syntax at line 11|tdelay-cert 4/circuit 1 1/default 1 1/output all/first ./second ./hold ./flips 1/at 0/keep none/high
  > 1 Syntax at line 12|tdelay-cert 4/circuit 1 1/default 1 1/output all/first ./second ./hold ./flips 1/at 0/keep none/time 3/from
  > 4 NumberTooLarge at line 12|tdelay-cert 4/circuit 1 1/default 1 1/output all/first ./second ./hold ./flips 1/at 0/keep none/time 3/high 1000000000000000001
  > 2 UnexpectedEnd at line 13|tdelay-cert 4/circuit 1 1/default 1 1/output all/first ./second ./hold ./flips 1/at 0/keep none/time 3/high 3/
  > 2 UnexpectedEnd at line 11|tdelay-cert 4/circuit 1 1/default 1 1/output all/first ./second ./hold ./flips 1/at 0/keep none/time n
  > 2 UnexpectedEnd at line 12|tdelay-cert 4/circuit 1 1/default 1 1/output all/first ./second ./hold ./flips 1/at 0/keep none/time none/
  > 1 Syntax at line 11|tdelay-cert 4/circuit 1 1/default 1 1/output all/first ./second ./hold ./flips 1/at 0/keep none/time n0/
  > 1 Syntax at line 11|tdelay-cert 4/circuit 1 1/default 1 1/output all/first ./second ./hold ./flips 1/at 0/keep none/time none 3/
  > 1 Syntax at line 12|tdelay-cert 4/circuit 1 1/default 1 1/output all/first ./second ./hold ./flips 1/at 0/keep none/time none/high 3/
  > 1 Syntax at line 12|tdelay-cert 4/circuit 1 1/default 1 1/output all/first ./second ./hold ./flips 1/at 0/keep none/time none/from 0/to 1/none/
  > read|tdelay-cert 4/circuit 1 1/default 1 1/output all/first ./second ./hold ./flips 1/at 0/keep none/time none/none/
  > read|tdelay-cert 4/circuit 1 1/default 1 1/output all/first ./second ./hold ./flips 1/at 0/keep none/time none/b e 3/
  > 3 Trailing at line 13|tdelay-cert 4/circuit 1 1/default 1 1/output all/first ./second ./hold ./flips 1/at 0/keep none/time none/none/none/
  > 1 Syntax at line 3|tdelay-cert 1/circuit 1 1/time none/
  > 1 Syntax at line 7|tdelay-cert 2/circuit 1 1/first ./second ./hold ./flips 0/time none/
  > 1 Syntax at line 8|tdelay-cert 3/circuit 1 1/first ./second ./hold ./flips 1/at 7/time none/
  > 1 Syntax at line 5|tdelay-cert 4/circuit 0 1/default 1 1/output all/first /
  > 2 UnexpectedEnd at line 9|tdelay-cert 4/circuit 0 1/default 1 1/output all/first none/second none/hold none/flips 0/at n
  > 1 Syntax at line 9|tdelay-cert 4/circuit 0 1/default 1 1/output all/first none/second none/hold none/flips 0/at 0
  > 1 Syntax at line 15|tdelay-cert 4/circuit 1 1/default 1 1/output all/first ./second ./hold ./flips 1/at 0/keep none/time 3/high 3/from 0/to 1/b x
  > read|tdelay-cert 4/circuit 1 1/default 1 1/output all/first ./second ./hold ./flips 1/at 0/keep none/time 3/high 3/from 0/to 1/b a 3/
  > read|tdelay-cert 4/circuit 1 1/default 1 1/output all/first ./second ./hold ./flips 1/at 0/keep none/time 3/high 3/from 0/to 1/p 3/
  > read|tdelay-cert 4/circuit 1 1/default 1 1/output all/first ./second ./hold ./flips 1/at 0/keep none/time 3/high 3/from 0/to 1/none/
  > 2 UnexpectedEnd at line 17|tdelay-cert 4/circuit 1 1/default 1 1/output all/first ./second ./hold ./flips 1/at 0/keep none/time 3/high 3/from 0/to 1/s 0/b a 3/
  > 2 UnexpectedEnd at line 18|tdelay-cert 4/circuit 1 1/default 1 1/output all/first ./second ./hold ./flips 1/at 0/keep none/time 3/high 3/from 0/to 1/s 0/b t 3/s 1/
  > 3 Trailing at line 16|tdelay-cert 4/circuit 1 1/default 1 1/output all/first ./second ./hold ./flips 1/at 0/keep none/time 3/high 3/from 0/to 1/b e 3/b e 3/
  > 4 NumberTooLarge at line 15|tdelay-cert 4/circuit 1 1/default 1 1/output all/first ./second ./hold ./flips 1/at 0/keep none/time 3/high 3/from 0/to 1/b e 1000000000000000001
  > END
  62 rows

A leaf that is missing, and one too many.

  $ bash rows <<'END'
  > 2 UnexpectedEnd at line 12|tdelay-cert 1/circuit 1 2/time 0/from 0/to 1/s 0/s 1/b a 0/b a 0/s 1/b a 0/
  > read|tdelay-cert 1/circuit 1 2/time 0/from 0/to 1/s 0/s 1/b a 0/b a 0/s 1/b a 0/b a 0/
  > 3 Trailing at line 13|tdelay-cert 1/circuit 1 2/time 0/from 0/to 1/s 0/s 1/b a 0/b a 0/s 1/b a 0/b a 0/b a 0/
  > END
  3 rows

Each front of a certificate ends too early, told at the line where it ends; their numbers by lines.

  $ cat > whole <<'END'
  > tdelay-cert 1
  > circuit 1 1
  > time 3
  > from 0
  > to 1
  > b a 3
  > END
  $ for length in $(seq 0 $(wc -c < whole)); do head -c $length whole > c; tdelay check inverter.v c 2>&1; done | uniq -c | sed 's/^ *//'
  14 tdelay: certificate fault 2 UnexpectedEnd at line 1
  12 tdelay: certificate fault 2 UnexpectedEnd at line 2
  7 tdelay: certificate fault 2 UnexpectedEnd at line 3
  7 tdelay: certificate fault 2 UnexpectedEnd at line 4
  5 tdelay: certificate fault 2 UnexpectedEnd at line 5
  6 tdelay: certificate fault 2 UnexpectedEnd at line 6
  1 accepted 3

A tree that goes on below 100,000 splits, but for its last leaf, and the whole of it, whose second split is at the position of the first.

  $ cat > lost.v <<'END'
  > module t(y, a); output y; input a; not #1 n(b,a); and #2 g(y,a,b); endmodule
  > END
  $ {
  >   printf 'tdelay-cert 1\ncircuit 1 2\ntime 0\nfrom 0\nto 1\n'
  >   yes 's 0' | head -n 100000
  >   yes 'b a 0' | head -n 100000
  > } > deep
  $ tdelay check lost.v deep
  tdelay: certificate fault 2 UnexpectedEnd at line 200006
  [1]
  $ echo 'b a 0' >> deep; tdelay check lost.v deep
  refused 5 BadPosition line 7
  [4]

A certificate of the most inputs and gates, and with one more of each.

  $ bits=$(printf '01%.0s' {1..2048})
  > for sizes in '4096 200000' '4097 200000' '4096 200001'; do
  >   printf '%s\n' 'tdelay-cert 1' "circuit $sizes" 'time 0' "from $bits" "to $bits" 'p 0' > c
  >   tdelay check inverter.v c
  > done
  refused 7 OtherCircuit
  tdelay: certificate fault 4 NumberTooLarge at line 2
  tdelay: certificate fault 4 NumberTooLarge at line 2
  [1]

The netlist is judged before the certificate, the texts before the circuit's loops and these before the certificate.

  $ cat > loop.v <<'END'
  > module t(y, a); output y; input a; nand #1 g(y,a,y); endmodule
  > END
  $ : > empty; echo 'module t(a);' > cut.v; echo 'tdelay-cert 9' > c
  $ tdelay check empty c
  tdelay: netlist fault 2 UnexpectedEnd at line 1
  [1]
  $ tdelay check cut.v c
  tdelay: netlist fault 2 UnexpectedEnd at line 2
  [1]
  $ tdelay check loop.v c
  tdelay: circuit fault 1 Loop on y
  [1]
  $ tdelay check inverter.v c
  tdelay: certificate fault 5 Version at line 1
  [1]
