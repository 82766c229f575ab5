Questions that are cut into parts, searched apart, and joined again. Six nand gates, and a signal that meets itself again.

  $ cp $NETLISTS/c17.v .
  > cat > met.v <<'END'
  > module t (a, b, y);
  > input a, b;
  > output y;
  > buf #1 p1(p,b);
  > buf #1 p2(q,b);
  > xor #3 g(y,a,p,q);
  > endmodule
  > END
  $ cat > cut.sh <<'END'
  > # COUNT NETLIST STRATEGY FIRST SECOND [OPTION..]: into how many parts the question is cut, where at most so many are asked for, the time of
  > # the search as a whole, and what the parts are joined into in their order and turned around, by its time and by what the checker says.
  > count=$1 netlist=$2 strategy=$3 pins=(--first $4 --second $5)
  > tdelay parts $netlist --parts $count --strategy $strategy "${pins[@]}" "${@:6}" > lines
  > turned=() place=0
  > while read -r line; do
  >   place=$((place + 1))
  >   tdelay worst $netlist $line --strategy $strategy --cert part-$place > report || echo "part $place: $?"
  >   turned=(part-$place "${turned[@]}")
  > done < lines
  > whole=$(tdelay worst $netlist --strategy $strategy "${pins[@]}" "${@:6}" | grep '^exact')
  > for parts in "$(seq -f 'part-%.0f' $place)" "${turned[*]}"; do
  >   tdelay join $netlist $parts "${pins[@]}" "${@:6}" --cert joined | grep '^exact'
  >   tdelay check $netlist joined | head -1
  > done | paste -sd' ' | sed "s/^/$(wc -l < lines) parts of $whole: /"
  > END

All pairs of the nand gates, and few of them.

  $ for count in 1 2 5 20; do bash cut.sh $count c17.v least ..... .....; done
  1 parts of exact 3: exact 3 accepted 3 exact 3 accepted 3
  2 parts of exact 3: exact 3 accepted 3 exact 3 accepted 3
  5 parts of exact 3: exact 3 accepted 3 exact 3 accepted 3
  20 parts of exact 3: exact 3 accepted 3 exact 3 accepted 3
  $ for count in 1 2 5 20; do bash cut.sh $count c17.v least 1..0. ...0. --hold ..=.. --flips 2; done
  1 parts of exact 2: exact 2 accepted 2 exact 2 accepted 2
  2 parts of exact 2: exact 2 accepted 2 exact 2 accepted 2
  5 parts of exact 2: exact 2 accepted 2 exact 2 accepted 2
  20 parts of exact 2: exact 2 accepted 2 exact 2 accepted 2

Two inputs have 16 pairs, and 8 of them have the second input held: there are no more parts than pairs.

  $ for count in 1 2 5 20; do bash cut.sh $count met.v least .. ..; done
  1 parts of exact 3: exact 3 accepted 3 exact 3 accepted 3
  2 parts of exact 3: exact 3 accepted 3 exact 3 accepted 3
  5 parts of exact 3: exact 3 accepted 3 exact 3 accepted 3
  16 parts of exact 3: exact 3 accepted 3 exact 3 accepted 3
  $ for count in 1 2 5 20; do bash cut.sh $count met.v least .. .. --hold .= --flips 1; done
  1 parts of exact 3: exact 3 accepted 3 exact 3 accepted 3
  2 parts of exact 3: exact 3 accepted 3 exact 3 accepted 3
  5 parts of exact 3: exact 3 accepted 3 exact 3 accepted 3
  8 parts of exact 3: exact 3 accepted 3 exact 3 accepted 3

With `lead`, which climbs at the begin of each part.

  $ for count in 1 2 5 7; do bash cut.sh $count c17.v lead ..... .....; done
  > bash cut.sh 5 c17.v lead 1..0. ...0. --hold ..=.. --flips 2
  > bash cut.sh 20 met.v lead .. ..
  > bash cut.sh 2 met.v lead .. .. --hold .= --flips 1
  1 parts of exact 3: exact 3 accepted 3 exact 3 accepted 3
  2 parts of exact 3: exact 3 accepted 3 exact 3 accepted 3
  5 parts of exact 3: exact 3 accepted 3 exact 3 accepted 3
  7 parts of exact 3: exact 3 accepted 3 exact 3 accepted 3
  5 parts of exact 2: exact 2 accepted 2 exact 2 accepted 2
  16 parts of exact 3: exact 3 accepted 3 exact 3 accepted 3
  2 parts of exact 3: exact 3 accepted 3 exact 3 accepted 3

The part with the greatest bound is halved next, and not the first one. By edges the pairs of an inverter that end at 0 have the bound of its rise
delay, those that end at 1 that of its fall delay.

  $ cat > slow_rise.v <<'END'
  > module t (a, y);
  > input a;
  > output y;
  > not #(3,2) g(y,a);
  > endmodule
  > END
  $ sed 's/3,2/2,3/' slow_rise.v > slow_fall.v
  $ for netlist in slow_rise slow_fall; do tdelay parts $netlist.v --parts 2 --strategy lead | paste -sd,; done
  --first . --second 0,--first . --second 1
  --first . --second 0,--first . --second 1
  $ tdelay parts slow_rise.v --parts 3 --strategy lead | sort
  --first . --second 1
  --first 0 --second 0
  --first 1 --second 0
  $ tdelay parts slow_fall.v --parts 3 --strategy lead | sort
  --first . --second 0
  --first 0 --second 1
  --first 1 --second 1

Delays of gates that state none, where they aren't one step.

  $ cat > plain.v <<'END'
  > module t (a, y);
  > input a;
  > output y;
  > not g(y,a);
  > endmodule
  > END
  $ tdelay parts plain.v --parts 2 --default-rise 7 --default-fall 9 | tee lines
  --first 0 --second . --default-rise 7 --default-fall 9
  --first 1 --second . --default-rise 7 --default-fall 9
  $ while read -r line; do tdelay worst plain.v $line | grep '^exact'; done < lines
  exact 9
  exact 7
  $ tdelay parts plain.v --parts 1 --default-fall 9; tdelay parts plain.v --parts 1 --default-rise 1
  --first . --second . --default-fall 9
  --first . --second .
