The changes that lead to the last one. A row has the number of inputs, the gates of a module whose outputs are `y` and `z`, the inputs' moments, the
two vectors, and perhaps the output that is asked about.

  $ cat > paths <<'END'
  > while IFS='|' read -r count gates at from to output; do
  >   names=$(echo a,b,c | cut -d, -f1-$count)
  >   echo "module t (y,z,$names); output y,z; input $names; $gates endmodule" > t.v
  >   tdelay path t.v $from $to --at $at ${output:+--output $output} | tail -n +3 | sed 's/change //' |
  >     awk '{ printf "%s%s", between, $0; between = ", " } END { print "" }'
  > done
  > END

A change passes an inverter in the delay of its own direction, and a change to x in the lesser of the two.

  $ bash paths <<'END'
  > 1|not #(2,5) (y,a); buf #1 (z,1'b0);|0|0|1
  > 1|not #(2,5) (y,a); buf #1 (z,1'b0);|0|1|0
  > 1|not #(2,5) (y,a); buf #1 (z,1'b0);|7|1|0
  > 1|not #(2,5) (y,a); buf #1 (z,1'b0);|0|1|x
  > 1|not #(2,5) (y,a); buf #1 (z,1'b0);|0|x|0
  > 1|not #(2,5) (y,a); buf #1 (z,1'b0);|0|1|1
  > END
  0 a 0 1 input, 5 y 1 0 not 5
  0 a 1 0 input, 2 y 0 1 not 2
  7 a 1 0 input, 9 y 0 1 not 2
  0 a 1 x input, 2 y 0 x not 2
  0 a x 0 input, 2 y x 1 not 2
  time 0

A change that reaches a gate on two ways: the later one is the cause of the last change, unless the pulse is lost.

  $ bash paths <<'END'
  > 3|not #1 (n,c); and #2 (p,a,c); and #2 (q,b,n); or #1 (y,p,q); buf #1 (z,1'b0);|0,0,0|111|110
  > 3|not #1 (n,c); and #2 (p,a,c); and #2 (q,b,n); or #(1,2) (y,p,q); buf #1 (z,1'b0);|0,0,0|111|110
  > 1|buf #3 (n,a); xor #1 (y,a,n); buf #1 (z,1'b0);|0|0|1
  > 1|buf #3 (n,a); xor #3 (y,a,n); buf #1 (z,1'b0);|0|0|1
  > 1|buf #3 (n,a); xor #4 (y,a,n); buf #1 (z,1'b0);|0|0|1
  > 1|not #1 (y,n); not #2 (n,a); buf #1 (z,1'b0);|4|0|1
  > END
  0 c 1 0 input, 1 n 0 1 not 1, 3 q 0 1 and 2, 4 y 0 1 or 1
  time 0
  0 a 0 1 input, 3 n 0 1 buf 3, 4 y 1 0 xor 1
  0 a 0 1 input, 3 n 0 1 buf 3, 6 y 1 0 xor 3
  time 0
  4 a 0 1 input, 6 n 1 0 not 2, 7 y 0 1 not 1

Of several terminals that change at once the first is told, and none that changed at another moment.

  $ bash paths <<'END'
  > 3|buf #1 (n,a); buf #1 (p,b); buf #1 (q,c); xor #1 (y,n,p,q); buf #1 (z,1'b0);|0,0,0|000|111
  > 3|buf #1 (n,a); buf #1 (p,b); buf #1 (q,c); and #1 (y,n,p,q); buf #1 (z,1'b0);|0,0,0|100|111
  > 2|and #1 (y,a,b); buf #1 (z,1'b0);|3,5|00|11
  > 2|and #1 (y,a,b); buf #1 (z,1'b0);|3,5|11|00
  > 1|nand #(3,4) (y,1'b1,a,a); buf #1 (z,1'b0);|2|0|1
  > END
  0 a 0 1 input, 1 n 0 1 buf 1, 2 y 0 1 xor 1
  0 b 0 1 input, 1 p 0 1 buf 1, 2 y 0 1 and 1
  5 b 0 1 input, 6 y 0 1 and 1
  3 a 1 0 input, 4 y 1 0 and 1
  2 a 0 1 input, 6 y 1 0 nand 4

The output that changes last, the first one of several.

  $ bash paths <<'END'
  > 1|buf #1 (y,a); buf #4 (z,a);|0|0|1
  > 1|buf #4 (z,a); buf #5 (y,a);|0|0|1
  > 1|buf #2 (z,a); buf #2 (y,a);|0|0|1
  > 2|buf #1 (n,a); buf #1 (z,n); buf #9 (y,b);|0,0|00|10
  > END
  0 a 0 1 input, 4 z 0 1 buf 4
  0 a 0 1 input, 5 y 0 1 buf 5
  0 a 0 1 input, 2 y 0 1 buf 2
  0 a 0 1 input, 1 n 0 1 buf 1, 2 z 0 1 buf 1

Each output has its own changes.

  $ bash paths <<'END'
  > 2|buf #2 (y,a); and #1 (z,y,b);|3,4|00|10|y
  > 2|buf #2 (y,a); and #1 (z,y,b);|3,4|00|10|z
  > 1|not #1 (z,a); and #1 (y,a,z);|0|0|1|y
  > 1|not #1 (z,a); and #1 (y,a,z);|0|0|1|z
  > END
  3 a 0 1 input, 5 y 0 1 buf 2
  last z never
  0 a 0 1 input, 1 z 1 0 not 1, 2 y 1 0 and 1
  0 a 0 1 input, 1 z 1 0 not 1
