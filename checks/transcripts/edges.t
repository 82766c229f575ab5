The bound by edges of one gate, worked by hand: the last moment before which its output may fall or rise. Each row has the gate, the
moments of its inputs, both vectors with `.` for a free bit, and that moment.

  $ cat > bound.sh <<'EOF'
  > # The bound by edges of a row's gate, beside the one that was worked by hand.
  > while IFS='|' read -r gate moments first second last; do
  >   case $moments in *' '*' '*) names=a,b,c ;; *' '*) names=a,b ;; *) names=a ;; esac
  >   echo "module t($names,y); input $names; output y; $gate endmodule" > t.v
  >   found=$(tdelay bound t.v --edges --first $first --second $second --at "${moments// /,}" | grep '^e ')
  >   [ "$found" = "e $last" ] && echo yes || echo "$gate $moments $first $second: $found, not $last"
  > done
  > EOF

An input changes at its moment, to the levels that its bits leave.

  $ bash bound.sh <<'EOF' | uniq -c | tr -s ' '
  > buf #1 (y,a);|4|.|.|5
  > buf #1 (y,a);|4|0|.|5
  > buf #1 (y,a);|4|.|0|5
  > buf #1 (y,a);|4|1|0|5
  > buf #1 (y,a);|4|1|1|0
  > EOF
   5 yes

The output changes to a level only where an input does, to the other level at a gate that negates.

  $ bash bound.sh <<'EOF' | uniq -c | tr -s ' '
  > or #(2,3) (y,a,b);|4 6|..|..|9
  > or #(2,3) (y,a,b);|4 6|01|01|0
  > and #1 (y,a,b);|2 5|01|10|6
  > nand #(2,3) (y,a,b);|2 5|01|10|7
  > nor #1 (y,a,b);|2 5|10|01|6
  > not #(2,3) (y,a);|4|0|.|7
  > EOF
   6 yes

After the others' changes a parity follows the last input, where the others' finishes are known.

  $ bash bound.sh <<'EOF' | uniq -c | tr -s ' '
  > xor #1 (y,a,b);|2 5|.0|.1|6
  > xor #1 (y,a,b);|2 5|.0|11|6
  > xor #1 (y,a,b);|2 5|.0|01|6
  > xnor #1 (y,a,b);|2 5|.0|11|6
  > xor #1 (y,a,b,c);|9 3 3|0..|111|10
  > xor #1 (y,a,b,c);|9 3 3|0..|1.1|10
  > EOF
   6 yes

An input keeps the output from its last change to the controlling level on, where it finishes there, and until its earliest
change, where it starts there.

  $ bash bound.sh <<'EOF' | uniq -c | tr -s ' '
  > and #1 (y,a,b);|3 9|..|0.|4
  > and #1 (y,a,b);|3 9|0.|0.|0
  > and #1 (y,a,b);|3 9|..|1.|10
  > and #1 (y,a,b);|5 2|0.|1.|6
  > nor #1 (y,a,b);|3 9|..|1.|4
  > EOF
   5 yes

A change away from the finish is seen where the change back comes no sooner than its delay.

  $ bash bound.sh <<'EOF' | uniq -c | tr -s ' '
  > and #(3,1) (y,a,b);|2 5|01|10|6
  > and #(4,1) (y,a,b);|2 5|01|10|0
  > nand #(2,3) (y,a,b);|2 5|01|10|7
  > nand #(2,4) (y,a,b);|2 5|01|10|0
  > EOF
   4 yes
