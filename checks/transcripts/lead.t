Searches with `--strategy lead`. `netlist GATES INPUTS OUTPUTS` writes a netlist; `search OPTIONS` searches it, and tells behind the report's lines the tree of the
certificate.

  $ cat > netlist <<'END'
  > echo "module t ($2, $3); input $2; output $3; $1 endmodule" > t.v
  > END
  $ cat > search <<'END'
  > rm -f t.cert
  > tdelay worst t.v --strategy lead --cert t.cert "$@" > report
  > echo $(tail -n +3 report)$([ -f t.cert ] && sed '1,/^to /d' t.cert | sed 's/^/, /' | tr -d '\n')
  > END

Small circuits: their cubes are closed by edges, and one is split at the bit on which most nets depend, the second before the first.

  $ bash netlist 'not #(2,3) (y,a);' a y; bash search
  exact 3 from 0 to 1 nodes 1, b e 3
  $ bash netlist 'not #1 (n,a); and #2 (y,a,n);' a y; bash search
  exact 0 from 0 to 1 nodes 7, s 1, s 0, b e 0, b e 0, s 0, b e 0, b e 0
  $ bash netlist 'buf #1 (d,a); or #1 (m,c,d); not #3 (k,a); and #2 (y,m,k);' a,c y; bash search
  exact 5 from 00 to 11 nodes 1, b e 5
  $ bash netlist 'buf #3 (p,a); xor #(1,4) (q,p,a); or #1 (r,q,b); or #1 (s,b,q); and #2 (z,b,a); nor #(4,2) (y,q,p);' a,b y,z
  > bash search
  exact 11 from 10 to 00 nodes 1, b e 11

A leaf that possible levels close, which are asked where edges don't suffice, and before a point is measured.

  $ bash netlist 'buf #1 (p,b); buf #1 (q,b); xor #3 (y,a,p,q);' a,b y; bash search --first 00 --second 11
  exact 3 from 00 to 11 nodes 1, b t 3

No inputs, and nothing at all.

  $ echo "module t (y); output y; and #1 (y,1'b1,1'b1); endmodule" > t.v; bash search
  exact 0 from none to none nodes 1, b e 0
  $ echo 'module t; endmodule' > t.v; bash search; bash search --budget 0
  exact 0 from none to none nodes 1, b e 0
  between 0 0 cause budget from none to none nodes 0

Cut short.

  $ bash netlist 'not #1 (n,a); and #2 (y,a,n);' a y; bash search --budget 0; bash search --budget 1
  between 0 3 cause budget from 0 to 1 nodes 0
  between 0 3 cause budget from 0 to 1 nodes 1

A ripple adder of eight bits takes one node.

  $ gates=$(for i in 0 1 2 3 4 5 6 7; do
  >   echo "xor #4 (p$i,a$i,b$i); xor #4 (s$i,p$i,c$i); and #(3,2) (g$i,a$i,b$i); and #(3,2) (t$i,p$i,c$i); or #(2,3) (c$((i+1)),g$i,t$i);"
  > done)
  > bash netlist "$gates" a0,a1,a2,a3,a4,a5,a6,a7,b0,b1,b2,b3,b4,b5,b6,b7,c0 s0,s1,s2,s3,s4,s5,s6,s7,c8
  > bash search
  exact 44 from 10000010101000100 to 11111111000000001 nodes 1, b e 44

The climb with which a search begins, from the pair that stands for the pins: the first pair of the greatest delay that it meets. The second circuit's first pair
is as late as any, and in the third a climb is stuck and goes on from another pair.

  $ cat > climb <<'END'
  > tdelay worst t.v --strategy lead --budget 0 "$@" | grep 'between\|from\|to' | cut -d' ' -f2 | paste -sd' '
  > END
  $ bash netlist 'nand #(1,2) (p,a,b); nor #(2,1) (q,b,c); and #3 (y,p,q,a);' a,b,c y; bash climb
  5 111 100
  $ bash netlist 'xor #(1,4) (p,a,b); nand #2 (q,p,c); xnor #1 (y,q,a);' a,b,c y; bash climb --at 0,4,1
  11 000 111
  $ bash netlist 'xnor #(3,4) (p,b,d,a); and #(2,1) (q,c,a,b); xnor #(3,2) (r,b,c); xor #(6,1) (s,a,q); xor #(3,3) (t,r,c); xnor #(2,6) (y,p,s);' a,b,c,d y
  > bash climb
  13 1110 1000
  $ bash netlist 'xor #(2,3) (v,a,b); nand #(1,4) (w,v,c); nor #2 (x,w,d); and #(5,1) (u,v,d); or #3 (y,x,u);' a,b,c,d y
  > bash climb; bash climb --first 0... --hold .=..; bash climb --flips 1; bash climb --second ..1. --flips 2
  11 0001 0110
  11 0000 1010
  11 0010 1010
  11 1110 0110

Where a cube is split. `halves` cuts a question in two, and tells the two parts. While the output's finish is open, only inputs count whose second bit is free: the one
that reaches the most nets on the way, the least of several.

  $ cat > halves <<'END'
  > while IFS='|' read -r inputs gates first second; do
  >   bash netlist "$gates" $inputs y
  >   echo $(tdelay parts t.v --parts 2 --strategy lead --first $first --second $second | sed 's/--first//; s/--second/to/; s/$/,/')
  > done
  > END
  $ bash halves <<'END'
  > a,b,c|and (w,a,b); and (y,w,c);|...|...
  > a,b,c|and (w,a,b); and (y,w,c);|...|1..
  > a,b,c|and (w,a,b); and (y,w,c);|...|11.
  > a,b|buf (w,b); buf (v,w); and (y,a,v);|..|..
  > a,b|buf (w,b); buf (v,w); and (y,a,v);|..|.1
  > a,b,c|buf (w,c); and (v,b,w); xor (u,v,a); and (y,u,a);|...|...
  > a,b,c|buf (w,c); and (v,b,w); xor (u,v,a); and (y,u,a);|...|.0.
  > END
  ... to 0.., ... to 1..,
  ... to 10., ... to 11.,
  ... to 110, ... to 111,
  .. to .0, .. to .1,
  .. to 01, .. to 11,
  ... to ..0, ... to ..1,
  ... to 00., ... to 10.,

Once it is known, all nets count that may change, and first bits where no second bit is free. Where nothing is free there is one part.

  $ bash halves <<'END'
  > a,b,c|and (w,a,b); and (y,w,c);|...|111
  > a,b,c|and (w,a,b); and (y,w,c);|...|0..
  > a,b,c|and (w,a,b); and (y,w,c);|1..|0..
  > a,b,c|and (w,a,b); and (y,w,c);|1..|011
  > a,b,c|buf (w,c); and (v,w,b); and (y,v,a);|...|111
  > a,b,c|and (y,a,b);|00.|11.
  > a,b|and (y,a,b);|00|11
  > END
  0.. to 111, 1.. to 111,
  ... to 00., ... to 01.,
  1.. to 00., 1.. to 01.,
  10. to 011, 11. to 011,
  ..0 to 111, ..1 to 111,
  000 to 11., 001 to 11.,
  00 to 11,

Of a gate with 70 inputs the one counts most that comes through another gate too: told is how many inputs stand before it.

  $ inputs=$(seq -s, 0 69 | sed 's/[0-9]*/i&/g')
  > for late in 0 63 64 69; do
  >   bash netlist "buf (w,i$late); and (y,w,$inputs);" $inputs y
  >   second=$(tdelay parts t.v --parts 2 --strategy lead | head -n 1 | sed 's/.*--second //; s/0.*//')
  >   echo ${#second}
  > done
  0
  63
  64
  69
