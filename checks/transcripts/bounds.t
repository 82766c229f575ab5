Bounds of the pairs of a cube: `a` by arrival windows, `t` by possible levels, `m` by both, `e` by edges, `n` by edges and possible levels. A
row has the number of inputs, the gates, the inputs' moments, the bits of both vectors, and which bounds are told.

  $ cat > bounds <<'END'
  > while IFS='|' read -r count gates at first second letters; do
  >   names=$(echo a,b,c,d | cut -d, -f1-$count)
  >   echo "module t (y,$names); output y; input $names; $gates endmodule" > t.v
  >   echo "$first $second:" $(tdelay bound t.v --first $first --second $second --at $at --edges | grep "^[$letters] ")
  > done
  > END

An inverter, and a buffer that falls late: edges know that it only rises.

  $ bash bounds <<'END'
  > 1|not #(2,3) (y,a);|0|.|.|atmen
  > 1|buf #(1,9) (y,a);|0|0|.|aen
  > 1|buf #(1,9) (y,a);|0|.|.|aen
  > END
  . .: a 3 t none m 3 e 3 n 3
  0 .: a 9 e 1 n 1
  . .: a 9 e 9 n 9

A pulse that is shorter than the delay, one that is as long as it, one that falls late, and one between two ways.

  $ bash bounds <<'END'
  > 1|not #1 (n,a); and #2 (y,a,n);|0|0|1|atmen
  > 1|not #1 (n,a); and #2 (y,a,n);|0|0|0|a
  > 1|not #1 (n,a); and #1 (y,a,n);|0|0|1|atm
  > 1|not #1 (n,a); and #1 (y,a,n);|0|.|.|atm
  > 1|not #1 (n,a); and #(1,3) (y,a,n);|0|0|1|atmen
  > 1|buf #1 (p,a); not #2 (n,a); xor #2 (y,p,n);|0|0|1|atmen
  > END
  0 1: a 0 t 0 m 0 e 0 n 0
  0 0: a 0
  0 1: a 2 t 2 m 2
  . .: a 2 t none m 2
  0 1: a 4 t 4 m 4 e 4 n 4
  0 1: a 0 t 0 m 0 e 0 n 0

Two ways that cancel each other, which the possible levels of one pair know; a pulse that two inputs share; and a slow arm.

  $ bash bounds <<'END'
  > 2|buf #1 (p,b); buf #1 (q,b); xor #3 (y,a,p,q);|0,0|..|..|atmen
  > 2|buf #1 (p,b); buf #1 (q,b); xor #3 (y,a,p,q);|0,0|00|11|atmen
  > 2|buf #1 (d,a); or #1 (m,b,d); not #3 (k,a); and #2 (y,m,k);|0,0|00|1.|atm
  > 2|buf #4 (t,a); or #1 (y,b,t);|0,0|..|..|atm
  > 2|buf #4 (t,a); or #1 (y,b,t);|0,0|.1|.1|atm
  > END
  .. ..: a 4 t none m 4 e 4 n 4
  00 11: a 4 t 3 m 3 e 4 n 3
  00 1.: a 5 t 5 m 5
  .. ..: a 5 t none m 5
  .1 .1: a 0 t 0 m 0

An input that changes at 7.

  $ bash bounds <<'END'
  > 1|not #1 (n,a); and #1 (y,a,n);|7|0|1|at
  > 1|not #1 (n,a); and #1 (y,a,n);|7|0|0|a
  > END
  0 1: a 9 t 9
  0 0: a 0

Nine times the exclusive or of a net and the net itself, later: the ninth changes 512 times, at each moment from 9 to 520, which is as many
changes as are kept. Then one change more, at moment 601.

  $ nine=$(a=a; for i in 256 128 64 32 16 8 4 2 1; do echo "buf #$i (b$i,$a); xor #1 (x$i,$a,b$i);"; a=x$i; done)
  > echo "module t (x1,a); output x1; input a; $nine endmodule" > nine.v
  > tdelay bound nine.v --first 0 --second 1 | grep "^t"
  > echo "module t (y,a); output y; input a; $nine buf #600 (c,a); xor #1 (y,x1,c); endmodule" > ten.v
  > tdelay bound ten.v --first 0 --second 1 | grep "^t"
  t 520
  t none
