A certificate that is read is written again as the same text: `join` of one certificate alone, with `--no-check` and the words of its
question, writes what it read. Of each version, with each kind of line; so is one of the most inputs and of many lines.

  $ cat > netlist.sh <<'EOF'
  > # A netlist of so many inputs and so many gates.
  > inputs=$(seq -f 'a%.0f' -s, "$1")
  > echo "module t($inputs, y0); input $inputs; output y0;"
  > for gate in $(seq 0 $(($2 - 1))); do echo "buf (y$gate, a1);"; done
  > echo endmodule
  > EOF
  $ cat > again.sh <<'EOF'
  > # Whether the certificate, a line for each slash, is written again.
  > printf %s "$3" | tr / '\n' > one
  > bash netlist.sh "$1" "$2" > t.v
  > words=$(sed -nE '/^at/y/ /,/; s/^(first|second|hold|flips|at)[ ,](.*)/--\1=\2/p' one)
  > tdelay join t.v one --no-check $words --cert - | cmp - one && echo again
  > EOF
  $ bash again.sh 1 1 tdelay-cert\ 1/circuit\ 1\ 1/time\ 3/from\ 0/to\ 1/b\ a\ 3/
  again
  $ bash again.sh 1 2 'tdelay-cert 1/circuit 1 2/time 0/from 0/to 1/s 0/s 1/b a 0/b a 0/s 1/b a 0/b a 0/'
  again
  $ bash again.sh 2 3 'tdelay-cert 1/circuit 2 3/time 1000000000000000000/from 01/to 11/s 3/b t 4/s 1/b m 5/p 17/'
  again
  $ bash again.sh 2 3 'tdelay-cert 2/circuit 2 3/first ../second ../hold ../flips 1/time 5/from 01/to 11/s 0/s 1/b a 3/s 2/s 3/b a 0/none/b a 5/b a 5/'
  again
  $ bash again.sh 3 1 'tdelay-cert 2/circuit 3 1/first 0.1/second 1../hold .=./flips 3/time 0/from 000/to 100/none/'
  again
  $ bash again.sh 3 1 'tdelay-cert 3/circuit 3 1/first 0.1/second 1../hold .=./flips 0/at 0 1000000000 0/time 0/from 000/to 100/p 0/'
  again
  $ bash again.sh 2 3 'tdelay-cert 4/circuit 2 3/default 1 1/output all/first ../second ../hold ../flips 1/at 0 7/keep none/time 5/high 5/from 01/to 11/s 0/s 1/b a 3/s 2/p 2/b n 4/s 3/none/b e 5/'
  again
  $ bash again.sh 2 3 'tdelay-cert 4/circuit 2 3/default 1 1/output all/first .0/second ../hold .=/flips 1/at 0 7/keep none/time 5/high 5/from 01/to 11/s 0/b a 3/s 2/p 2/s 3/none/b e 5/'
  again

A version is the least that the lines need: another one is no text of a certificate that is written.

  $ bash again.sh 1 1 'tdelay-cert 3/circuit 1 2/first ./second ./hold ./flips 1/at 0/time 9/from 0/to 1/b a 9/'
  tdelay: one: certificate fault 1 Syntax at line 7
  cmp: EOF on - which is empty
  [1]

A certificate of 4,096 inputs whose tree goes on below 100,000 splits.

  $ bash netlist.sh 4096 3 > t.v
  > { printf 'tdelay-cert 1\ncircuit 4096 3\ntime 0\nfrom '
  >   for i in $(seq 2048); do printf 01; done; printf '\nto '; for i in $(seq 2048); do printf 10; done; echo
  >   yes 's 0' | head -100000; yes 'b a 0' | head -100001; } > large
  $ tdelay join t.v large --no-check --cert - | cmp - large && echo again
  again
