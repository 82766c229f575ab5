Searches by several workers. An inverter, a pulse that is lost, a signal that meets itself again, an or with a slow arm, and a circuit of
which no pair changes as late as edges let it, so that cubes are split.

  $ netlist() { printf 'module t (%s, y);\ninput %s;\noutput y;\n%s\nendmodule\n' "$1" "$1" "$2"; }
  > netlist a 'not #(2,3) g(y,a);' > inverter.v
  > netlist a 'not #1 n(b,a); and #2 g(y,a,b);' > lost.v
  > netlist 'a, b' 'buf #1 p1(p,b); buf #1 p2(q,b); xor #3 g(y,a,p,q);' > met.v
  > netlist 'a, b' 'buf #4 s(t,a); or #1 g(y,b,t);' > slow.v
  > netlist 'a, b, c, d' 'xnor #(3,4) (w,b,d,a); and #(2,1) (v,c,a,b); xor #(6,1) (u,a,v); xnor #(2,6) (y,w,u);' > split.v

The signal that meets itself beside three and four inputs that no gate reads: of the first a tree has 2,047 nodes, since no bound is below 4
while a position is free.

  $ netlist() { printf 'module t (%s, y);\ninput %s;\noutput y;\n%s\nendmodule\n' "$1" "$1" "$2"; }
  > netlist 'e, f, g, a, b' 'buf #1 p1(p,b); buf #1 p2(q,b); xor #3 r(y,a,p,q);' > wide.v
  > netlist 'e, f, g, h, a, b' 'buf #1 p1(p,b); buf #1 p2(q,b); xor #3 r(y,a,p,q);' > long.v

The time is the same for any number of workers and by each strategy, and each certificate is accepted.

  $ cat > times.sh <<'END'
  > # What searches by 1, 2, 4 and 64 workers tell, and what the checker says of their certificates, each thing once.
  > for workers in 1 2 4 64; do
  >   tdelay worst "$@" --workers $workers --cert found.cert | grep '^exact'
  >   tdelay check $1 found.cert | head -1
  > done | sort -u | paste -sd' '
  > END
  $ for strategy in least lead; do
  >   for netlist in inverter lost met slow split; do bash times.sh $netlist.v --strategy $strategy; done
  > done
  accepted 3 exact 3
  accepted 0 exact 0
  accepted 3 exact 3
  accepted 5 exact 5
  accepted 13 exact 13
  accepted 3 exact 3
  accepted 0 exact 0
  accepted 3 exact 3
  accepted 5 exact 5
  accepted 13 exact 13

With pins, a held input, few flips and moments of the inputs.

  $ bash times.sh slow.v --first 1. --second 1.
  > bash times.sh slow.v --hold =.
  > bash times.sh split.v --first 1..0 --flips 1 --strategy lead
  > bash times.sh split.v --at 0,3,0,5
  > bash times.sh split.v --at 0,3,0,5 --strategy lead
  accepted 0 exact 0
  accepted 1 exact 1
  accepted 13 exact 13
  accepted 16 exact 16
  accepted 16 exact 16

Each node of a budget is used.

  $ cat > figures.sh <<'END'
  > # The figures that a search tells, on one line.
  > tdelay worst "$@" | grep -E '^(exact|between|cause|nodes) ' | paste -sd' '
  > END
  $ for budget in {0..7}; do bash figures.sh lost.v --budget $budget; done
  between 0 3 cause budget nodes 0
  between 0 3 cause budget nodes 1
  between 0 3 cause budget nodes 2
  between 0 3 cause budget nodes 3
  between 0 3 cause budget nodes 4
  between 0 3 cause budget nodes 5
  between 0 3 cause budget nodes 6
  exact 0 nodes 7

  $ for budget in {0..9}; do bash figures.sh slow.v --budget $budget; done
  between 1 5 cause budget nodes 0
  between 1 5 cause budget nodes 1
  between 1 5 cause budget nodes 2
  between 1 5 cause budget nodes 3
  between 1 5 cause budget nodes 4
  between 1 5 cause budget nodes 5
  between 5 5 cause budget nodes 6
  between 5 5 cause budget nodes 7
  between 5 5 cause budget nodes 8
  exact 5 nodes 9

  $ for workers in 1 2 4; do
  >   for budget in 2046 2047; do bash figures.sh wide.v --budget $budget --workers $workers; done
  > done
  between 3 4 cause budget nodes 2046
  exact 3 nodes 2047
  between 3 4 cause budget nodes 2046
  exact 3 nodes 2047
  between 3 4 cause budget nodes 2046
  exact 3 nodes 2047

A search that is watched tells each milestone: here 1,000, 2,000 and 5,000 nodes. What it tells is what a search answers that has as many
nodes to handle.

  $ tdelay worst long.v --budget 6000 --progress 2> told | grep -E '^(exact|between|cause|nodes) ' | paste -sd' '
  > awk '{ print ($2 >= 5000 ? 5000 : $2 >= 2000 ? 2000 : $2 >= 1000 ? 1000 : 0) }' told
  > while read -r _ nodes _ low _ high _; do
  >   bash figures.sh long.v --budget $((nodes < 6000 ? nodes : 6000)) | grep -c "^between $low $high "
  > done < told
  between 3 4 cause budget nodes 6000
  1000
  2000
  5000
  1
  1
  1

The nodes rise from one line to the next, the lower figures don't fall, the upper ones don't rise, and leaves are left. So it is with more
workers, who tell a milestone later, or none but the last of those that were passed meanwhile.

  $ cat > order.awk <<'END'
  > { right += $2 > nodes && $4 >= low && (NR == 1 || $6 <= high) && $4 <= $6 && $8 >= 1; nodes = $2; low = $4; high = $6 }
  > END { print (NR > 0 && right == NR ? "ordered" : "not ordered") }
  > END
  $ for workers in 1 2 4; do
  >   tdelay worst long.v --budget 6000 --progress --workers $workers 2> told | grep '^nodes'
  >   awk -f order.awk told
  > done
  nodes 6000
  ordered
  nodes 6000
  ordered
  nodes 6000
  ordered

A watch changes nothing of what one worker answers with `lead`, and is told nothing before the first milestone.

  $ for netlist in slow split; do
  >   for budget in 0 3 1000000; do
  >     bash figures.sh $netlist.v --strategy lead --budget $budget > unwatched
  >     bash figures.sh $netlist.v --strategy lead --budget $budget --progress 2> told | diff unwatched - && wc -c < told
  >   done
  > done
  0
  0
  0
  0
  0
  0

A pulse that is as long as a delay, one that falls late, one that two inputs share, and c17.

  $ netlist() { printf 'module t (%s, y);\ninput %s;\noutput y;\n%s\nendmodule\n' "$1" "$1" "$2"; }
  > netlist a 'not #1 n(b,a); and #1 g(y,a,b);' > equal.v
  > netlist a 'not #1 n(b,a); and #(1,3) g(y,a,b);' > late.v
  > netlist 'a, c' 'buf #1 g1(d,a); or #1 g2(m,c,d); not #3 g3(k,a); and #2 g4(y,m,k);' > hidden.v
  > cp "$NETLISTS"/c17.v .
  > for netlist in equal late hidden c17; do bash times.sh $netlist.v; done
  accepted 2 exact 2
  accepted 4 exact 4
  accepted 5 exact 5
  accepted 3 exact 3

The wide one by 64 workers, with a pair that has the delay, and its certificate.

  $ tdelay worst wide.v --workers 64 --cert wide.cert | grep -E '^(exact|nodes)' | paste -sd' '
  > tdelay check wide.v wide.cert
  > tdelay sim wide.v $(sed -n 's/^from //p; s/^to //p' wide.cert) | grep time
  exact 3 nodes 2047
  accepted 3
  time 3
