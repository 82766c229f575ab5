Runs of small circuits: the output's last change as `sim` tells it, and its changes as a dump has them, moment by moment.
`of GATES COUNT` writes a netlist with these gates, an output `y`, and so many inputs `a`, `b` and so on.

  $ cat > of <<'END'
  > names=$(echo a,b,c,d | cut -d, -f1-$2)
  > echo "module t (y,$names); output y; input $names; $1 endmodule" > t.v
  > END
  $ cat > changes <<'END'
  > awk '$1 == "$var" && $5 == "y" { id = $4 }
  >   /^#/ { moment = substr($0, 2) - 1; next }
  >   moment >= 0 && substr($0, 2) == id { printf " %d:%s", moment, substr($0, 1, 1) }'
  > END
  $ cat > runs <<'END'
  > while IFS='|' read -r count gates at from to; do
  >   bash of "$gates" $count
  >   echo "$from $to" $(tdelay sim t.v $from $to --at $at | grep last) $(tdelay sim t.v $from $to --at $at --vcd - | bash changes)
  > done
  > END

A gate with two delays takes that of the new level, and to x the lesser of the two.

  $ bash runs <<'END'
  > 1|not #(2,3) (y,a);|0|0|1
  > 1|not #(2,3) (y,a);|0|1|0
  > 1|not #(2,3) (y,a);|0|0|x
  > 1|not #(5,1) (y,a);|0|0|x
  > END
  0 1 last y 3 3:0
  1 0 last y 2 2:1
  0 x last y 2 2:x
  0 x last y 1 1:x

A pulse that is shorter than the delay is lost, one that is as long as it passes, and a slow fall makes it longer.

  $ bash runs <<'END'
  > 1|not #1 (n,a); and #2 (y,a,n);|0|0|1
  > 1|not #1 (n,a); and #1 (y,a,n);|0|0|1
  > 1|not #1 (n,a); and #(1,3) (y,a,n);|0|0|1
  > END
  0 1 last y never
  0 1 last y 2 1:1 2:0
  0 1 last y 4 1:1 4:0

Inputs that change together; the two that change before them; and a pulse that one input alone doesn't make, and that an unknown level hides.

  $ bash runs <<'END'
  > 2|buf #1 (p,b); buf #1 (q,b); xor #3 (y,a,p,q);|0,0|00|11
  > 2|buf #1 (d,a); or #1 (m,b,d); not #3 (k,a); and #2 (y,m,k);|0,0|00|11
  > 2|buf #1 (d,a); or #1 (m,b,d); not #3 (k,a); and #2 (y,m,k);|0,0|00|10
  > 2|buf #1 (d,a); or #1 (m,b,d); not #3 (k,a); and #2 (y,m,k);|0,0|00|1x
  > END
  00 11 last y 3 3:1
  00 11 last y 5 3:1 5:0
  00 10 last y never
  00 1x last y never

Inputs that change at moments of their own: the second one falls with the first one's rise, or after it; and far apart.

  $ bash runs <<'END'
  > 2|and #2 (y,a,b);|0,0|01|10
  > 2|and #2 (y,a,b);|0,1|01|10
  > 2|and #2 (y,a,b);|0,2|01|10
  > 2|and #2 (y,a,b);|300,44|00|11
  > 1|not #1 (n,a); and #1 (y,a,n);|7|0|1
  > END
  01 10 last y never
  01 10 last y never
  01 10 last y 4 2:1 4:0
  00 11 last y 302 302:1
  0 1 last y 9 8:1 9:0
