Certificates of searches, whole and with a line changed. Each row has a netlist, the lines of the certificate in front of its time, the
time, the pair that has it, and the tree; a slash stands for the end of a line.

  $ cat > searches <<'END'
  > module t(a, y); input a; output y; not #(2,3) g(y,a); endmodule|tdelay-cert 1/circuit 1 1/|3|0|1|b a 3/
  > module t(a, y); input a; output y; not #1 n(b,a); and #2 g(y,a,b); endmodule|tdelay-cert 1/circuit 1 2/|0|0|1|s 0/s 1/b a 0/b a 0/s 1/b a 0/b a 0/
  > module t(a, y); input a; output y; not #1 n(b,a); and #1 g(y,a,b); endmodule|tdelay-cert 1/circuit 1 2/|2|0|1|b a 2/
  > module t(a, y); input a; output y; not #1 n(b,a); and #(1,3) g(y,a,b); endmodule|tdelay-cert 1/circuit 1 2/|4|0|1|b a 4/
  > module t(a, b, y); input a, b; output y;/buf #1 p1(p,b); buf #1 p2(q,b); xor #3 g(y,a,p,q); endmodule|tdelay-cert 1/circuit 2 3/|3|00|11|s 0/s 1/s 2/s 3/p 0/p 0/s 3/p 0/p 0/s 2/s 3/p 3/p 3/s 3/p 3/p 3/s 1/s 2/s 3/p 3/p 3/s 3/p 3/p 3/s 2/s 3/p 0/p 0/s 3/p 0/p 0/
  > module t(a, c, y); input a, c; output y;/buf #1 g1(d,a); or #1 g2(m,c,d); not #3 g3(k,a); and #2 g4(y,m,k); endmodule|tdelay-cert 1/circuit 2 4/|5|00|11|b a 5/
  > module c17 (N1,N2,N3,N6,N7,N22,N23);/input N1,N2,N3,N6,N7;/output N22,N23;/wire N10,N11,N16,N19;/nand NAND2_1 (N10, N1, N3);/nand NAND2_2 (N11, N3, N6);/nand NAND2_3 (N16, N2, N11);/nand NAND2_4 (N19, N11, N7);/nand NAND2_5 (N22, N10, N16);/nand NAND2_6 (N23, N16, N19);/endmodule/|tdelay-cert 1/circuit 5 6/|3|00000|11111|b a 3/
  > module t(a, b, y); input a, b; output y; buf #4 s(t,a); or #1 g(y,b,t); endmodule|tdelay-cert 1/circuit 2 2/|5|00|10|s 0/s 1/b a 1/s 2/s 3/b a 5/b a 1/b a 5/b a 5/
  > module t(a, b, y, z); input a, b; output y, z;/buf #3 (w0,a); xor #(1,4) (w1,w0,a); or #1 (w2,w1,b); or #1 (w3,b,w1); and #2 (z,b,a); nor #(4,2) (y,w1,w0); endmodule|tdelay-cert 1/circuit 2 6/|11|10|01|s 0/s 1/b a 0/b m 3/b a 11/
  > module t (y); output y; and #1 g(y,1'b1,1'b1); endmodule|tdelay-cert 1/circuit 0 1/|0|none|none|b a 0/
  > module t(a, c, y); input a, c; output y;/buf #1 g1(d,a); or #1 g2(m,c,d); not #3 g3(k,a); and #2 g4(y,m,k); endmodule|tdelay-cert 2/circuit 2 4/first ../second ../hold ../flips 1/|5|01|11|s 0/s 1/b a 3/s 2/s 3/b a 0/none/b a 5/b a 5/
  > module t(a, y); input a; output y; not #(2,3) g(y,a); endmodule|tdelay-cert 2/circuit 1 1/first ./second ./hold =/flips 1/|0|0|0|s 0/s 1/b a 0/none/s 1/none/b a 0/
  > module t(a, b, y); input a, b; output y; buf #4 s(t,a); or #1 g(y,b,t); endmodule|tdelay-cert 2/circuit 2 2/first .1/second .1/hold ../flips 2/|0|01|11|b a 0/
  > module t(a, y); input a; output y; not #1 n(b,a); and #1 g(y,a,b); endmodule|tdelay-cert 3/circuit 1 2/first ./second ./hold ./flips 1/at 7/|9|0|1|b a 9/
  > module t(a, b, y); input a, b; output y; and #2 g(y,a,b); endmodule|tdelay-cert 3/circuit 2 1/first ../second ../hold ../flips 2/at 0 2/|4|00|11|b a 4/
  > module t(a, y); input a; output y; not #(2,3) g(y,a); endmodule|tdelay-cert 4/circuit 1 1/default 1 1/output all/first ./second ./hold ./flips 1/at 0/keep none/|3|0|1|s 0/b e 3/b n 2/
  > module t(a, y); input a; output y; not #(2,3) g(y,a); endmodule|tdelay-cert 4/circuit 1 1/default 1 1/output all/first ./second ./hold ./flips 1/at 7/keep none/|10|0|1|s 0/b n 10/b e 9/
  > END
  $ cat > lines <<'END'
  > # What the scripts below have in common.
  > # verdict TEXT: the first line that is said of a certificate.
  > verdict() {
  >   printf '%b' "${1//\//\\n}" > c
  >   tdelay check t.v c 2>&1 | head -n 1
  > }
  > # begin TIME TO: makes the row's netlist, the lines of the tree, and the head of a certificate with this time and second vector.
  > begin() {
  >   printf '%b' "${netlist//\//\\n}" > t.v
  >   IFS=/ read -ra lines <<< "$tree"
  >   high=
  >   [[ $front = 'tdelay-cert 4/'* ]] && high="high $1/"
  >   head="${front}time $1/${high}from $from/to $2/"
  >   ends=${head//[!\/]/}
  > }
  > # changed PLACE LINE: the certificate with this line at a place of the tree.
  > changed() {
  >   local other=("${lines[@]}")
  >   other[$1]=$2
  >   printf '%s' "$head"
  >   printf '%s/' "${other[@]}"
  > }
  > # expect PLACE LINE VERDICT: says where the verdict on the certificate with this line at a place of the tree is another one.
  > expect() {
  >   found=$(verdict "$(changed "$1" "$2")")
  >   [[ $found = $3 ]] || echo "$found, not $3: $2 at $1 of $netlist|$head"
  >   count=$((count + 1))
  > }
  > count=0
  > END

They are accepted.

  $ . ./lines
  > while IFS='|' read -r netlist front time from to tree; do
  >   begin $time $to
  >   expect 0 "${lines[0]}" "accepted $time"
  > done < searches
  > echo $count certificates
  17 certificates

The number of a leaf is the least that is accepted. One more is above the time, or accepted; that of a pair has to be its delay.

  $ . ./lines
  > while IFS='|' read -r netlist front time from to tree; do
  >   begin $time $to
  >   for place in "${!lines[@]}"; do
  >     leaf=${lines[place]}
  >     [[ $leaf = [bp]* ]] || continue
  >     number=${leaf##* } kind=${leaf% *} line=$((${#ends} + 1 + place))
  >     more="accepted $time"
  >     ((number + 1 > time)) && more="refused 4 LeafAboveTime line $line"
  >     [ "$kind" = p ] && more="refused 3 LeafBound line $line"
  >     expect $place "$kind $((number + 1))" "$more"
  >     ((number == 0)) || expect $place "$kind $((number - 1))" "refused 3 LeafBound line $line"
  >   done
  > done < searches
  > echo $count certificates
  76 certificates

The time 0 and a pair without a change, where the worst delay is greater: refused as a certificate or as a text, whichever leaf has the
number 0.

  $ . ./lines
  > while IFS='|' read -r netlist front time from to tree; do
  >   [ $time = 0 ] && continue
  >   begin 0 $from
  >   for place in "${!lines[@]}"; do
  >     [[ ${lines[place]} = [bp]* ]] || continue
  >     for leaf in 'b a 0' 'b t 0' 'b m 0' 'p 0'; do expect $place "$leaf" '[rt]*'; done
  >   done
  > done < searches
  > echo $count certificates
  156 certificates

Each leaf with a number has an admitted pair in its cube.

  $ . ./lines
  > while IFS='|' read -r netlist front time from to tree; do
  >   [[ $front = 'tdelay-cert 1/'* ]] && continue
  >   begin $time $to
  >   for place in "${!lines[@]}"; do
  >     [[ ${lines[place]} = [bp]* ]] || continue
  >     expect $place none "refused 9 LeafNotEmpty line $((${#ends} + 1 + place))"
  >   done
  > done < searches
  > echo $count certificates
  13 certificates

A leaf without an admitted pair, as that of the inverter whose input is held, may have a bound all the same; in the first version no leaf
says that it has none.

  $ . ./lines
  > while IFS='|' read -r netlist front time from to tree; do
  >   begin $time $to
  >   expect 3 'b a 3' 'refused 4 LeafAboveTime line 13'
  >   expect 3 'b a 2' 'refused 3 LeafBound line 13'
  >   expect 3 'p 3' 'refused 4 LeafAboveTime line 13'
  > done < <(grep 'hold =' searches)
  > read -r row < searches
  > IFS='|' read -r netlist front time from to tree <<< "$row"
  > begin $time $to
  > expect 0 none 'tdelay: certificate fault 1 Syntax at line 6'
  > echo $count certificates
  4 certificates
