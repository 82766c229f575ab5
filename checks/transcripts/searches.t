Searches. `netlist GATES INPUTS OUTPUTS` writes a netlist; `search OPTIONS` searches it, and tells behind the report's lines the tree of the
certificate.

  $ cat > netlist <<'END'
  > echo "module t ($2, $3); input $2; output $3; $1 endmodule" > t.v
  > END
  $ cat > search <<'END'
  > rm -f t.cert
  > tdelay worst t.v --cert t.cert "$@" > report
  > echo $(tail -n +3 report)$([ -f t.cert ] && sed '1,/^to /d' t.cert | sed 's/^/, /' | tr -d '\n')
  > END

Circuits of one input: an inverter; a pulse that is shorter than the delay, where no bound shows at once that it is lost; one that is as long as the delay,
and one that falls late.

  $ bash netlist 'not #(2,3) (y,a);' a y; bash search
  exact 3 from 0 to 1 nodes 1, b a 3
  $ bash netlist 'not #1 (n,a); and #2 (y,a,n);' a y; bash search
  exact 0 from 0 to 1 nodes 7, s 0, s 1, b a 0, b a 0, s 1, b a 0, b a 0
  $ bash netlist 'not #1 (n,a); and #1 (y,a,n);' a y; bash search
  exact 2 from 0 to 1 nodes 1, b a 2
  $ bash netlist 'not #1 (n,a); and #(1,3) (y,a,n);' a y; bash search
  exact 4 from 0 to 1 nodes 1, b a 4

Of two and three: two ways that cancel each other, a pulse that two inputs share, and a slow arm.

  $ bash netlist 'buf #1 (p,b); buf #1 (q,b); xor #3 (y,a,p,q);' a,b y; bash search | cut -d, -f1
  exact 3 from 00 to 11 nodes 31
  $ bash netlist 'buf #1 (d,a); or #1 (m,c,d); not #3 (k,a); and #2 (y,m,k);' a,c y; bash search
  exact 5 from 00 to 11 nodes 1, b a 5
  $ bash netlist 'buf #4 (t,a); or #1 (y,b,t);' a,b y; bash search
  exact 5 from 00 to 10 nodes 9, s 0, s 1, b a 1, s 2, s 3, b a 5, b a 1, b a 5, b a 5
  $ tdelay worst $NETLISTS/c17.v --cert c17.cert | tail -n +3 | paste -sd' '; tail -n 1 c17.cert
  exact 3 from 00000 to 11111 nodes 1
  b a 3

A leaf that both domains close together, of a circuit with two outputs.

  $ bash netlist 'buf #3 (p,a); xor #(1,4) (q,p,a); or #1 (r,q,b); or #1 (s,b,q); and #2 (z,b,a); nor #(4,2) (y,q,p);' a,b y,z
  > bash search
  exact 11 from 10 to 01 nodes 5, s 0, s 1, b a 0, b m 3, b a 11

A leaf that possible levels close, which are asked where arrival windows don't suffice, and before both at once.

  $ bash netlist 'buf #1 (p,b); buf #1 (q,b); xor #3 (y,a,p,q);' a,b y; bash search --first 00 --second 11
  exact 3 from 00 to 11 nodes 1, b t 3

No inputs, and nothing at all.

  $ echo "module t (y); output y; and #1 (y,1'b1,1'b1); endmodule" > t.v; bash search
  exact 0 from none to none nodes 1, b a 0
  $ echo 'module t; endmodule' > t.v; bash search
  exact 0 from none to none nodes 1, b a 0
  $ bash search --budget 0
  between 0 0 cause budget from none to none nodes 0

Budgets: none, one node, as many as the tree has, and one that suffices.

  $ bash netlist 'not #1 (n,a); and #2 (y,a,n);' a y
  > for budget in 0 1 6 7; do bash search --strategy least --budget $budget | cut -d, -f1; done
  between 0 3 cause budget from 0 to 1 nodes 0
  between 0 3 cause budget from 0 to 1 nodes 1
  between 0 3 cause budget from 0 to 1 nodes 6
  exact 0 from 0 to 1 nodes 7
  $ bash netlist 'not #1 (n,a); and #1 (y,a,n);' a y; bash search --budget 1
  exact 2 from 0 to 1 nodes 1, b a 2

The upper bound falls once no open cube has the root's.

  $ bash netlist 'or #(3,2) (p,a,c); nand #1 (q,b,p); nor #3 (y,q,b);' a,b,c y; bash search --budget 0; bash search --strategy least --budget 25
  between 0 7 cause budget from 000 to 111 nodes 0
  between 0 4 cause budget from 000 to 111 nodes 25

Pairs with known bits.

  $ bash netlist 'buf #4 (t,a); or #1 (y,b,t);' a,b y; bash search --first .1 --second .1
  exact 0 from 01 to 11 nodes 1, b a 0
  $ bash netlist 'not #(2,3) (y,a);' a y; bash search --first 0 --second 1; bash search --first 1 --second 0
  exact 3 from 0 to 1 nodes 1, b a 3
  exact 2 from 1 to 0 nodes 1, b a 2

Pairs of few flips, and of held inputs.

  $ bash search --flips 0
  exact 0 from 0 to 0 nodes 7, s 0, s 1, b a 0, none, s 1, none, b a 0
  $ bash search --hold =
  exact 0 from 0 to 0 nodes 7, s 0, s 1, b a 0, none, s 1, none, b a 0
  $ bash netlist 'buf #4 (t,a); or #1 (y,b,t);' a,b y; bash search --flips 1; bash search --hold .=
  exact 5 from 00 to 10 nodes 1, b a 5
  exact 5 from 00 to 10 nodes 1, b a 5
  $ bash netlist 'buf #1 (d,a); or #1 (m,c,d); not #3 (k,a); and #2 (y,m,k);' a,c y; bash search --flips 1
  exact 5 from 01 to 11 nodes 9, s 0, s 1, b a 3, s 2, s 3, b a 0, none, b a 5, b a 5

No pair is admitted.

  $ bash netlist 'not #(2,3) (y,a);' a y; tdelay worst t.v --first 0 --second 1 --hold =
  tdelay: no admitted pair
  [1]
  $ bash netlist 'buf #4 (t,a); or #1 (y,b,t);' a,b y; tdelay worst t.v --first 1. --second 0. --flips 0
  tdelay: no admitted pair
  [1]

Inputs that change at moments of their own.

  $ bash netlist 'and #2 (y,a,b);' a,b y; bash search; bash search --at 0,2; bash search --first 01 --second 10 --at 0,2
  exact 2 from 00 to 11 nodes 1, b a 2
  exact 4 from 00 to 11 nodes 1, b a 4
  exact 4 from 01 to 10 nodes 1, b a 4
  $ for at in 0,1 300,44; do tdelay worst t.v --at $at | grep exact; done
  exact 3
  exact 302
  $ bash netlist 'not #1 (n,a); and #1 (y,a,n);' a y; bash search --at 7
  exact 9 from 0 to 1 nodes 1, b a 9
  $ bash netlist 'buf #1 (d,a); or #1 (m,c,d); not #3 (k,a); and #2 (y,m,k);' a,c y; tdelay worst t.v --at 0,9 | grep exact
  exact 12

The pair with which a search begins stands for the pins. Known bits stay, and those that differ count as flips first. Then the inputs in order,
while a flip is left: a free bit beside a known one is its complement, and two free bits are 0 and 1. Where an input is held or no flip is left, a free bit is as
the known one, and two free bits are 0.

  $ bash netlist 'and (y,a,b,c,d,e,f);' a,b,c,d,e,f y
  > pins='--first .0.1.1 --second ..110.'
  > for more in '--flips 6' '--flips 6 --hold ======' '--flips 6 --hold .=.=.=' '--flips 0' '--flips 2'; do
  >   bash search $pins $more --budget 0 | grep -o 'from.*to [01]*'
  > done
  from 000111 to 111100
  from 001101 to 001101
  from 000111 to 101101
  from 001101 to 001101
  from 001101 to 111101
  $ bash netlist 'and (y,a,b,c);' a,b,c y
  > while read -r pins; do bash search $pins --budget 0 | grep -o 'from.*to [01]*'; done <<'END'
  > --first ..0 --second ..1 --flips 3
  > --first ..0 --second ..1 --flips 2
  > --first ..1 --second ..0 --flips 1
  > --first ..0 --second 1.1 --flips 2 --hold =..
  > --first 1.0 --second 1.0 --flips 1
  > END
  from 000 to 111
  from 000 to 101
  from 001 to 000
  from 100 to 111
  from 100 to 110

No budget, where the root's bound is the delay of its pair; and a time in steps of a picosecond.

  $ bash netlist 'not #(2,3) (y,a);' a y; bash search --budget 0
  between 3 3 cause budget from 0 to 1 nodes 0
  $ sed -i '1i `timescale 1ns/1ps' t.v && sed -i 's/#(2,3)/#1.5/' t.v; tdelay worst t.v
  unit 1 ps
  defaulted 0
  exact 1500
  from 0
  to 1
  nodes 1
