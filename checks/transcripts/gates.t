The tables of the gates (IEEE 1364-2005, clauses 7.2 and 7.3), seen in a settled circuit. `levels NETS` tells the levels of nets before the
first change of a dump.

  $ cat > levels <<'END'
  > awk -v nets="$*" '
  >   $1 == "$var" { name[$4] = $5 }
  >   /^\$dumpvars/ { on = 1; next }
  >   /^\$end/ { on = 0 }
  >   on { level[name[substr($0, 2)]] = substr($0, 1, 1) }
  >   END { n = split(nets, each, " "); for (i = 1; i <= n; i++) printf "%s", level[each[i]]; print "" }'
  > END

Of one input: `buf`, `and`, `or` and `xor` pass it on, `not`, `nand`, `nor` and `xnor` negate it.

  $ cat > one.v <<'END'
  > module one (a, k, l, m, n, o, p, q, r);
  > input a;
  > output k, l, m, n, o, p, q, r;
  > buf (k,a); and (l,a); or (m,a); xor (n,a); not (o,a); nand (p,a); nor (q,a); xnor (r,a);
  > endmodule
  > END
  $ for a in 0 1 x; do tdelay sim one.v $a $a --vcd - | bash levels a k l m n o p q r; done
  000001111
  111110000
  xxxxxxxxx

Of two inputs: behind them `and`, `nand`, `or`, `nor`, `xor` and `xnor`.

  $ cat > two.v <<'END'
  > module two (a, b, m, n, o, p, q, r);
  > input a, b;
  > output m, n, o, p, q, r;
  > and (m,a,b); nand (n,a,b); or (o,a,b); nor (p,a,b); xor (q,a,b); xnor (r,a,b);
  > endmodule
  > END
  $ for v in 00 01 0x 10 11 1x x0 x1 xx; do tdelay sim two.v $v $v --vcd - | bash levels a b m n o p q r; done
  00010101
  01011010
  0x01xxxx
  10011010
  11101001
  1xxx10xx
  x001xxxx
  x1xx10xx
  xxxxxxxx

Of three inputs: they are taken one after another, and the result is negated at the end, so that both halves are the same.

  $ cat > three.v <<'END'
  > module three (a, b, c, m, n, o, p, q, r, f, g, h, i, j, k);
  > input a, b, c;
  > output m, n, o, p, q, r, f, g, h, i, j, k;
  > and (m,a,b,c); or (n,a,b,c); xor (o,a,b,c); nand (p,a,b,c); nor (q,a,b,c); xnor (r,a,b,c);
  > and (s,a,b); or (t,a,b); xor (u,a,b);
  > and (f,s,c); or (g,t,c); xor (h,u,c); not (i,f); not (j,g); not (k,h);
  > endmodule
  > END
  $ for a in 0 1 x; do for b in 0 1 x; do for c in 0 1 x; do
  >   tdelay sim three.v $a$b$c $a$b$c --vcd dump > report
  >   bash levels m n o p q r < dump > whole
  >   bash levels f g h i j k < dump | cmp - whole && wc -c < whole
  > done; done; done | sort | uniq -c | tr -s ' '
   27 7
