Leaves by spans: what is wrong with their texts, and their verdicts. Each row has what `tdelay check` says first, a bar, and the text of a
certificate behind a head that the rows of a table have in common, a slash in it the end of a line.

  $ cat > rows <<'END'
  > #!/usr/bin/env bash
  > # rows NETLIST HEAD OPTION ..: reads rows, what is said, a bar, and what stands behind the head in a certificate. Prints the rows of which
  > # `tdelay check` says something else, with that, and how many rows there were.
  > count=0
  > while IFS='|' read -r said text; do
  >   printf '%b' "${2//\//\\n}${text//\//\\n}" > c
  >   found=$(tdelay check "$1" c "${@:3}" 2>&1 | head -n 1)
  >   found=${found#tdelay: certificate fault }
  >   [ "$found" = "$said" ] || echo "$found|$text"
  >   count=$((count + 1))
  > done
  > echo $count rows
  > END

An `and` that falls at 4 although its second input may fall at 1: no domain knows that the first one has fallen by then. Net 2 is a, 3 is
b, 4 is y.

  $ cat > early.v <<'END'
  > module t(a, y); input a; output y; buf #1 p(b,a); and #(1,4) g(y,a,b); endmodule
  > END
  $ bash rows early.v 'tdelay-cert 4/circuit 1 2/default 1 1/output all/first ./second ./hold ./flips 1/at 0/keep none/time 4/high 4/from 1/to 0/' <<'END'
  > accepted 4|x/f 2/f 3/f 4/w 4 0 5/t 2 1/t 4 1 3/g 6 0/e 4 0 5 2 4 6 2 0 1/q 4/
  > accepted 4|x/f 2/f 3/f 4/w 4 0 5/t 2 1/t 4 1 3/g 6 0/l 2 4 6 2 0 1/e 4 0 5 2 4 6 3/q 4/
  > accepted 4|s 0/s 1/b a 0/p 2/x/f 2/f 3/f 4/w 4 0 5/u 1 0/t 2 1/t 4 1 3/g 6 0/e 4 0 5 2 4 6 3 1 2/r 4/q 4/
  > accepted 4|s 0/x/q 2/x/f 2/f 3/f 4/w 4 0 5/t 2 1/t 4 1 3/g 6 0/e 4 0 5 2 4 6 2 0 1/q 4/
  > refused 3 LeafBound line 24|x/f 2/f 3/f 4/w 4 0 5/t 2 1/t 4 1 3/g 6 0/e 4 0 5 2 4 6 2 0 1/q 3/
  > refused 4 LeafAboveTime line 24|x/f 2/f 3/f 4/w 4 0 5/t 2 1/t 4 1 3/g 6 0/e 4 0 5 2 4 6 2 0 1/q 5/
  > refused 3 LeafBound line 16|x/q 4/
  > refused 4 LeafAboveTime line 16|x/q 5/
  > refused 3 LeafBound line 17|s 0/x/q 1/x/q 4/
  > refused 5 BadPosition line 15|s 2/x/q 5/x/q 5/
  > refused 5 BadPosition line 18|s 0/x/q 2/s 0/x/q 5/x/q 5/
  > refused 9 LeafNotEmpty line 18|s 0/x/q 2/none/
  > refused 6 NotAPoint line 18|s 0/x/q 2/p 4/
  > refused 10 BadStep line 20|s 0/s 1/b a 0/p 2/x/u/q 5/
  > refused 10 BadStep line 21|s 0/x/f 2/q 2/x/r 4/g 0/q 4/
  > END
  15 rows

Lines that aren't good: too few numbers or too many.

  $ bash rows early.v 'tdelay-cert 4/circuit 1 2/default 1 1/output all/first ./second ./hold ./flips 1/at 0/keep none/time 4/high 4/from 1/to 0/x/' <<'END'
  > refused 10 BadStep line 16|i/q 5/
  > refused 10 BadStep line 16|i 2 0/q 5/
  > refused 10 BadStep line 16|f/q 5/
  > refused 10 BadStep line 16|f 2 0/q 5/
  > refused 10 BadStep line 16|w 4 0/q 5/
  > refused 10 BadStep line 16|w 4 0 1 2 3/q 5/
  > refused 10 BadStep line 16|c 1/q 5/
  > refused 10 BadStep line 16|c 1 0 0/q 5/
  > refused 10 BadStep line 16|g/q 5/
  > refused 10 BadStep line 16|t/q 5/
  > refused 10 BadStep line 16|n/q 5/
  > refused 10 BadStep line 17|w 4 0 5/n 1/q 5/
  > refused 10 BadStep line 17|w 4 0 5/n 1 0 0/q 5/
  > refused 4 LeafAboveTime line 18|w 4 0 5/n 1 0/q 5/
  > refused 10 BadStep line 16|l/q 5/
  > refused 10 BadStep line 17|f 2/l 1/q 5/
  > refused 10 BadStep line 18|f 2/u 0 1/l 3 0 1/q 5/
  > refused 10 BadStep line 18|f 2/u 0 1/l 2 0 1/q 5/
  > refused 4 LeafAboveTime line 19|f 2/u 0 1/l 2 0 1 0/q 5/
  > refused 10 BadStep line 16|e 4 0 5/q 5/
  > refused 10 BadStep line 17|f 4/u/e 4 0 5 2 0/q 5/
  > refused 10 BadStep line 16|r/q 5/
  > refused 10 BadStep line 16|r 4 4/q 5/
  > refused 4 LeafAboveTime line 17|r 4/q 5/
  > END
  24 rows

Nets, levels, inputs and variables that there aren't, spans that end before they begin, variables after a step. A step about a gate is
of the net of its output.

  $ bash rows early.v 'tdelay-cert 4/circuit 1 2/default 1 1/output all/first ./second ./hold ./flips 1/at 0/keep none/time 4/high 4/from 1/to 0/x/' <<'END'
  > refused 10 BadStep line 16|i 5/q 5/
  > refused 10 BadStep line 16|f 1000000000000000000/q 5/
  > refused 10 BadStep line 16|w 5 0 1/q 5/
  > refused 10 BadStep line 16|w 4 2 1/q 5/
  > refused 10 BadStep line 16|w 4 0 2 1/q 5/
  > refused 4 LeafAboveTime line 17|w 4 0 2 2/q 5/
  > refused 10 BadStep line 16|c 2 0/q 5/
  > refused 4 LeafAboveTime line 17|c 1 1000000000000000000/q 5/
  > refused 4 LeafAboveTime line 20|i 0/i 1/f 0/w 1 0 0/q 5/
  > refused 10 BadStep line 17|f 4/g 2/q 5/
  > refused 10 BadStep line 18|f 2/w 4 0 5/g 2 4/q 5/
  > refused 10 BadStep line 18|f 2/w 4 0 5/g 2 0 4/q 5/
  > refused 10 BadStep line 17|f 4/t 2/q 5/
  > refused 10 BadStep line 18|f 4/f 2/t 1 2 4/q 5/
  > refused 10 BadStep line 17|f 4/n 2 0/q 5/
  > refused 10 BadStep line 17|f 4/n 1 2/q 5/
  > refused 10 BadStep line 17|f 4/u 2/q 5/
  > refused 10 BadStep line 17|f 2/u 0 1 2/q 5/
  > refused 10 BadStep line 18|f 2/u 0 1/l 1 2 0/q 5/
  > refused 10 BadStep line 18|f 2/u 0 1/l 3 0 1 2 0/q 5/
  > refused 10 BadStep line 18|f 2/u 0 1/e 4 0 5 1 2 0/q 5/
  > refused 10 BadStep line 16|e 5 0 5 0/q 5/
  > refused 10 BadStep line 16|e 4 2 5 0/q 5/
  > refused 10 BadStep line 16|r 5/q 5/
  > refused 10 BadStep line 16|r 2/q 5/
  > refused 10 BadStep line 16|r 0/q 5/
  > refused 10 BadStep line 17|f 2/g 0/q 5/
  > refused 10 BadStep line 17|f 2/t 0/q 5/
  > refused 10 BadStep line 17|r 4/f 2/q 5/
  > refused 10 BadStep line 18|f 2/r 4/w 4 0 5/q 5/
  > END
  30 rows

Gates: the first literal has to say a span of an output, which by what the others say, denied, surely is at its level. One that falls at
4 needs 4 places, and stays for one more, since it rises in 1.

  $ bash rows early.v 'tdelay-cert 4/circuit 1 2/default 1 1/output all/first ./second ./hold ./flips 1/at 0/keep none/time 4/high 4/from 1/to 0/x/f 2/f 4/w 2 0 1 4/w 2 0 1 3/w 2 0 4 9/' <<'END'
  > refused 4 LeafAboveTime line 23|w 4 0 5/g 10 0/q 5/
  > refused 10 BadStep line 22|w 4 0 4/g 10 0/q 5/
  > refused 10 BadStep line 22|w 4 0 5/g 10 1/q 5/
  > refused 10 BadStep line 22|w 4 0 5/g 10/q 5/
  > refused 10 BadStep line 22|w 4 0 5/g 11 0/q 5/
  > refused 4 LeafAboveTime line 22|g 3 0/q 5/
  > refused 10 BadStep line 21|g 2 0/q 5/
  > refused 10 BadStep line 21|g 0/q 5/
  > refused 4 LeafAboveTime line 23|w 4 0 5 5/g 10 5/q 5/
  > refused 10 BadStep line 22|w 4 0 5 6/g 10 5/q 5/
  > refused 10 BadStep line 22|w 4 0 4 5/g 10 5/q 5/
  > refused 10 BadStep line 22|w 4 0 5 5/g 10 7/q 5/
  > refused 10 BadStep line 22|w 4 0 5 5/g 10 4/q 5/
  > refused 4 LeafAboveTime line 23|w 4 0 5 10/g 10 5 9/q 5/
  > refused 4 LeafAboveTime line 23|w 4 0 5 10/g 10 9 7/q 5/
  > refused 4 LeafAboveTime line 23|w 4 0 8 10/g 10 9 7/q 5/
  > refused 4 LeafAboveTime line 23|w 4 0 5 10/g 10 5 9 5 2 3/q 5/
  > refused 4 LeafAboveTime line 24|w 4 0 0/w 2 0 0/g 10 13/q 5/
  > refused 4 LeafAboveTime line 24|w 4 0 0 1/w 2 0 0 0/g 10 13/q 5/
  > refused 10 BadStep line 23|w 4 0 0 2/w 2 0 0 0/g 10 13/q 5/
  > refused 10 BadStep line 23|w 4 0 0/i 2/g 10 12/q 5/
  > refused 4 LeafAboveTime line 24|w 4 0 0 1/i 2/g 10 12/q 5/
  > refused 10 BadStep line 22|c 1 0/g 10/q 5/
  > END
  23 rows

Tables: of first levels or of last ones, and of those alone. The first literal of a net counts.

  $ bash rows early.v 'tdelay-cert 4/circuit 1 2/default 1 1/output all/first ./second ./hold ./flips 1/at 0/keep none/time 4/high 4/from 1/to 0/x/f 2/f 3/f 4/i 2/i 4/w 2 0 0/' <<'END'
  > refused 4 LeafAboveTime line 23|t 5 0/q 5/
  > refused 10 BadStep line 22|t 4 0/q 5/
  > refused 4 LeafAboveTime line 23|t 4 1 3/q 5/
  > refused 10 BadStep line 22|t 4 1/q 5/
  > refused 10 BadStep line 22|t 5 1 3/q 5/
  > refused 10 BadStep line 22|t 5/q 5/
  > refused 10 BadStep line 22|t 5 6/q 5/
  > refused 4 LeafAboveTime line 23|t 9 6/q 5/
  > refused 10 BadStep line 22|t 8 0/q 5/
  > refused 10 BadStep line 22|t 5 11/q 5/
  > refused 4 LeafAboveTime line 23|t 5 0 1/q 5/
  > refused 10 BadStep line 22|t 5 1 0/q 5/
  > refused 10 BadStep line 22|t 10 0/q 5/
  > refused 10 BadStep line 22|t 0 3/q 5/
  > END
  14 rows

Nets: a span that lies in another one, and two levels that have a place in common.

  $ bash rows early.v 'tdelay-cert 4/circuit 1 2/default 1 1/output all/first ./second ./hold ./flips 1/at 0/keep none/time 4/high 4/from 1/to 0/x/f 4/w 4 0 5/w 4 0 4/w 4 1 3 5/w 4 1 3 4/w 3 0 5/i 4/' <<'END'
  > refused 4 LeafAboveTime line 24|n 5 2/q 5/
  > refused 10 BadStep line 23|n 3 4/q 5/
  > refused 10 BadStep line 23|n 5 10/q 5/
  > refused 10 BadStep line 23|n 5 3/q 5/
  > refused 10 BadStep line 23|n 4 2/q 5/
  > refused 4 LeafAboveTime line 24|n 3 7/q 5/
  > refused 10 BadStep line 23|n 3 9/q 5/
  > refused 4 LeafAboveTime line 24|n 5 9/q 5/
  > refused 4 LeafAboveTime line 24|n 7 8/q 5/
  > refused 10 BadStep line 23|n 9 6/q 5/
  > refused 4 LeafAboveTime line 24|n 1 6/q 5/
  > refused 10 BadStep line 23|n 1 7/q 5/
  > refused 4 LeafAboveTime line 24|n 1 8/q 5/
  > refused 10 BadStep line 23|n 0 7/q 5/
  > refused 4 LeafAboveTime line 25|w 4 0 6/n 0 14/q 5/
  > refused 10 BadStep line 23|n 0 2/q 5/
  > refused 4 LeafAboveTime line 25|w 4 0 0 1/n 12 14/q 5/
  > refused 10 BadStep line 24|w 4 0 0 2/n 12 14/q 5/
  > refused 4 LeafAboveTime line 25|w 4 1 1 8/n 12 15/q 5/
  > refused 10 BadStep line 24|w 4 1 2 8/n 12 15/q 5/
  > END
  20 rows

Pairs: bits that contradict each other or the cube, a held input that differs, more flips than there may be; with counts over the first
inputs. The first one of each sign counts.

  $ cat > flips.v <<'END'
  > module t(a, b, c, y); input a, b, c; output y; and #1 g(y,a,b,c); endmodule
  > END
  $ bash rows flips.v 'tdelay-cert 4/circuit 3 1/default 1 1/output all/first 0../second .../hold ..=/flips 1/at 0 0 0/keep none/time 1/high 1/from 011/to 111/x/i 2/f 2/i 3/f 3/i 4/f 4/c 1 1/c 2 1/c 2 2/c 3 1/' <<'END'
  > refused 10 BadStep line 26|u/q 5/
  > refused 10 BadStep line 26|u 0/q 5/
  > refused 4 LeafAboveTime line 27|u 1/q 5/
  > refused 10 BadStep line 26|u 3/q 5/
  > refused 4 LeafAboveTime line 27|u 2 3/q 5/
  > refused 4 LeafAboveTime line 27|u 3 4 7/q 5/
  > refused 10 BadStep line 26|u 4 7/q 5/
  > refused 4 LeafAboveTime line 27|u 8 11/q 5/
  > refused 10 BadStep line 26|u 8 10/q 5/
  > refused 4 LeafAboveTime line 27|u 3 12/q 5/
  > refused 10 BadStep line 26|u 4 7 12/q 5/
  > refused 4 LeafAboveTime line 27|u 4 7 14/q 5/
  > refused 4 LeafAboveTime line 27|u 13 16 4 7/q 5/
  > refused 10 BadStep line 26|u 13 16 3/q 5/
  > refused 10 BadStep line 26|u 15 12/q 5/
  > refused 4 LeafAboveTime line 27|u 13 4 7/q 5/
  > refused 4 LeafAboveTime line 27|u 13 14/q 5/
  > refused 10 BadStep line 26|u 15 13 4 7/q 5/
  > refused 4 LeafAboveTime line 27|u 13 15 4 7/q 5/
  > refused 4 LeafAboveTime line 28|w 5 0 0/u 20 1/q 5/
  > refused 10 BadStep line 26|k 0/q 5/
  > refused 10 BadStep line 26|k 0 3/q 5/
  > END
  22 rows

An input is still where it is held, or where others surely differ at as many inputs as may: then its first level stays for ever.

  $ bash rows flips.v 'tdelay-cert 4/circuit 3 1/default 1 1/output all/first 0../second .../hold ..=/flips 1/at 0 0 0/keep none/time 1/high 1/from 011/to 111/' <<'END'
  > refused 4 LeafAboveTime line 19|x/i 4/w 5 0 0/g 2 0/q 5/
  > refused 10 BadStep line 18|x/i 3/w 5 0 0/g 2 0/q 5/
  > refused 4 LeafAboveTime line 19|x/i 3/w 5 0 0 1/g 2 0/q 5/
  > refused 4 LeafAboveTime line 22|s 1/x/q 0/x/i 3/w 5 0 0/g 2 0/q 5/
  > refused 10 BadStep line 19|s 1/x/i 3/w 5 0 0/g 2 0/q 0/x/q 1/
  > refused 10 BadStep line 21|s 1/x/q 0/x/i 2/w 5 0 0/g 2 0/q 5/
  > END
  6 rows

Lemmas: hints that leave several literals, that aren't there, or that end before a clause is false. Those after it may be any numbers.

  $ bash rows early.v 'tdelay-cert 4/circuit 1 2/default 1 1/output all/first ./second ./hold ./flips 1/at 0/keep none/time 4/high 4/from 1/to 0/x/f 2/f 3/f 4/w 4 0 5/t 2 1/t 4 1 3/g 6 0/' <<'END'
  > refused 4 LeafAboveTime line 24|l 2 4 6 2 0 1/q 5/
  > refused 10 BadStep line 23|l 2 4 6 2 0/q 5/
  > refused 4 LeafAboveTime line 24|l 2 4 6 2 0 1 1000000000000000000/q 5/
  > refused 4 LeafAboveTime line 24|l 2 4 6 2 2 0 1/q 5/
  > refused 10 BadStep line 23|l 2 4 6 0 2 1/q 5/
  > refused 10 BadStep line 23|l 2 4 6 1 2 0/q 5/
  > refused 10 BadStep line 23|l 2 4 6 3/q 5/
  > refused 10 BadStep line 23|l 2 4 6 3 2 0 1/q 5/
  > refused 10 BadStep line 23|l 2 4 6/q 5/
  > refused 4 LeafAboveTime line 24|l 4 4 4 6 6 2 0 1/q 5/
  > refused 4 LeafAboveTime line 24|l 3 0 4 6 2/q 5/
  > refused 10 BadStep line 23|l 2 6 7 2/q 5/
  > refused 10 BadStep line 23|l 2 6 7 2 2/q 5/
  > refused 10 BadStep line 23|l 1 6 2/q 5/
  > refused 10 BadStep line 23|l 0 2/q 5/
  > refused 10 BadStep line 23|l 0/q 5/
  > refused 4 LeafAboveTime line 25|l 2 4 6 2 0 1/l 2 4 6 3/q 5/
  > refused 4 LeafAboveTime line 25|l 2 4 6 2 0 1/l 3 4 6 7 3/q 5/
  > refused 10 BadStep line 23|l 2 4 6 3/l 2 4 6 2 0 1/q 5/
  > END
  19 rows

Ends: literals of another net, of the level itself, of a span that begins later, ends, or is denied. A greater place changes nothing.

  $ bash rows early.v 'tdelay-cert 4/circuit 1 2/default 1 1/output all/first ./second ./hold ./flips 1/at 0/keep none/time 4/high 4/from 1/to 0/x/f 2/f 3/f 4/w 4 0 5/i 4/w 4 1 5/w 4 0 5 9/t 2 1/t 4 1 3/g 6 0/' <<'END'
  > accepted 4|e 4 0 5 2 4 6 2 0 1/q 4/
  > refused 10 BadStep line 26|e 4 0 4 2 4 6 2 0 1/q 4/
  > refused 4 LeafAboveTime line 27|e 4 0 6 2 4 6 2 0 1/q 5/
  > refused 4 LeafAboveTime line 27|e 4 0 9 2 4 6 2 0 1/q 5/
  > refused 10 BadStep line 26|e 4 1 5 2 4 6 2 0 1/q 4/
  > refused 10 BadStep line 26|e 3 0 5 2 4 6 2 0 1/q 4/
  > refused 10 BadStep line 26|e 4 0 5 2 4 6 2 0/q 4/
  > accepted 4|e 4 0 5 3 4 6 10 2 0 1/q 4/
  > refused 10 BadStep line 26|e 4 0 5 3 4 6 8 2 0 1/q 4/
  > refused 10 BadStep line 26|e 4 0 5 3 4 6 12 2 0 1/q 4/
  > refused 10 BadStep line 26|e 4 0 5 3 4 6 0 2 0 1/q 4/
  > refused 10 BadStep line 26|e 4 0 5 3 4 6 7 2 0 1/q 4/
  > refused 10 BadStep line 26|e 4 0 5 3 4 6 5 2 0 1/q 4/
  > refused 10 BadStep line 26|e 4 0 5 0 2 0 1/q 4/
  > refused 10 BadStep line 26|e 4 0 5 1 6 2 0 1/q 4/
  > accepted 4|e 4 0 5 4 4 6 6 4 2 0 1/q 4/
  > accepted 4|e 4 0 5 2 4 6 2 0 1/e 4 0 6 2 4 6 2 0 1/q 4/
  > refused 10 BadStep line 26|g 6 5/q 4/
  > refused 10 BadStep line 27|e 4 0 5 2 4 6 2 0 1/w 4 0 5/g 6 0/q 4/
  > END
  19 rows

An empty clause says that no pair is admitted: then nothing changes. Here the held c is 0 and then 1.

  $ bash rows flips.v 'tdelay-cert 4/circuit 3 1/default 1 1/output all/first 0../second .../hold ..=/flips 2/at 0 0 0/keep none/time 1/high 1/from 011/to 111/' <<'END'
  > accepted 1|s 4/s 5/b a 0/x/u/e 5 0 0 0 0/e 5 1 0 0 0/q 0/s 5/none/b e 1/
  > refused 3 LeafBound line 21|s 4/s 5/b a 0/x/u/e 5 0 0 0 0/q 0/s 5/none/b e 1/
  > accepted 1|s 4/s 5/b a 0/x/f 2/u/l 1 0 0/l 0 0/e 5 0 0 0 2/e 5 1 0 0 2/q 0/s 5/none/b e 1/
  > refused 10 BadStep line 22|s 4/s 5/b a 0/x/f 2/u/l 1 0 0/e 5 1 0 0 1/q 0/s 5/none/b e 1/
  > refused 10 BadStep line 19|s 4/s 5/b a 0/x/e 5 1 0 0 0/q 0/s 5/none/b e 1/
  > refused 10 BadStep line 20|s 4/s 5/b a 0/x/u/e 5 1 0 0/q 0/s 5/none/b e 1/
  > END
  6 rows

Ends again, by those of a gate's inputs: of the same level, of the other one, of both.

  $ cat > later.v <<'END'
  > module t(a, z, u, v); input a; output z, u, v; buf #1 p(b,a); and #(1,4) g(y,a,b); buf #1 k(z,y); not #(1,1) n(u,y); xor #1 x(v,y,1'b0); endmodule
  > END
  $ bash rows later.v 'tdelay-cert 4/circuit 1 5/default 1 1/output all/first ./second ./hold ./flips 1/at 0/keep none/time 5/high 5/from 1/to 0/' <<'END'
  > accepted 5|x/f 2/f 3/f 4/w 4 0 5/t 2 1/t 4 1 3/g 6 0/e 4 0 5 2 4 6 2 0 1/r 5/r 6/r 7/q 5/
  > refused 3 LeafBound line 26|x/f 2/f 3/f 4/w 4 0 5/t 2 1/t 4 1 3/g 6 0/e 4 0 5 2 4 6 2 0 1/r 6/r 7/q 5/
  > refused 3 LeafBound line 26|x/f 2/f 3/f 4/w 4 0 5/t 2 1/t 4 1 3/g 6 0/e 4 0 5 2 4 6 2 0 1/r 5/r 7/q 5/
  > refused 3 LeafBound line 26|x/f 2/f 3/f 4/w 4 0 5/t 2 1/t 4 1 3/g 6 0/e 4 0 5 2 4 6 2 0 1/r 5/r 6/q 5/
  > refused 3 LeafBound line 27|x/f 2/f 3/f 4/w 4 0 5/t 2 1/t 4 1 3/g 6 0/e 4 0 5 2 4 6 2 0 1/r 5/r 6/r 7/q 4/
  > refused 3 LeafBound line 27|x/f 2/f 3/f 4/w 4 0 5/r 5/r 6/r 7/t 2 1/t 4 1 3/g 6 0/e 4 0 5 2 4 6 2 0 1/q 5/
  > END
  6 rows

The head is looked at before the tree.

  $ bash rows early.v 'tdelay-cert 4/circuit ' <<'END'
  > refused 7 OtherCircuit|1 1/default 1 1/output all/first ./second ./hold ./flips 1/at 0/keep none/time 4/high 4/from 1/to 0/x/k/q 4/
  > refused 8 PairNotAdmitted|1 2/default 1 1/output all/first 0/second ./hold ./flips 1/at 0/keep none/time 4/high 4/from 1/to 0/x/k/q 4/
  > refused 2 PairTime|1 2/default 1 1/output all/first ./second ./hold ./flips 1/at 1/keep none/time 4/high 4/from 1/to 0/x/k/q 4/
  > refused 2 PairTime|1 2/default 1 1/output all/first ./second ./hold ./flips 1/at 0/keep none/time 3/high 3/from 1/to 0/x/k/q 4/
  > END
  4 rows
  $ bash rows early.v 'tdelay-cert 4/circuit ' --default-rise 1 --output y <<'END'
  > refused 11 OtherQuestion line 3|1 2/default 2 1/output 0/first 0/second ./hold ./flips 1/at 0/keep none/time 4/high 4/from 1/to 0/x/k/q 4/
  > refused 11 OtherQuestion line 4|1 2/default 1 1/output all/first 0/second ./hold ./flips 1/at 0/keep none/time 4/high 4/from 1/to 0/x/k/q 4/
  > refused 8 PairNotAdmitted|1 2/default 1 1/output 0/first 0/second ./hold ./flips 1/at 0/keep none/time 4/high 4/from 1/to 0/x/k/q 4/
  > END
  3 rows

What is accepted is said with its question.

  $ printf '%b' 'tdelay-cert 4\ncircuit 1 2\ndefault 1 1\noutput all\nfirst 0\nsecond .\nhold .\nflips 1\nat 0\nkeep none\ntime 2\nhigh 2\nfrom 0\nto 1\nx\ni 2\nu 1\nq 2\n' > c; tdelay check early.v c
  accepted 2
  first 0

The texts of such leaves: one letter, then numbers.

  $ cat > inverter.v <<'END'
  > module t(y, a); output y; input a; not #(2,3) g(y,a); endmodule
  > END
  $ bash rows inverter.v 'tdelay-cert 4/circuit 1 1/default 1 1/output all/first ./second ./hold ./flips 1/at 0/keep none/time 3/high 3/from 0/to 1/' <<'END'
  > accepted 3|x/q 3/
  > accepted 3|x/f 2/i 2/w 3 0 0/c 0 0/q 3/
  > accepted 3|s 0/b a 3/x/q 3/
  > refused 10 BadStep line 16|x/k/f 2/q 3/
  > refused 4 LeafAboveTime line 16|x/q 1000000000000000000/
  > refused 10 BadStep line 16|x/t 1000000000000000000/q 3/
  > 4 NumberTooLarge at line 16|x/q 1000000000000000001/
  > 4 NumberTooLarge at line 16|x/t 1000000000000000001/q 3/
  > 4 NumberTooLarge at line 17|x/f 2/l 1 9999999999999999999/q 3/
  > 1 Syntax at line 15|X/q 3/
  > 1 Syntax at line 15|x /q 3/
  > 1 Syntax at line 15|x 1/q 3/
  > 1 Syntax at line 15|q 3/
  > 1 Syntax at line 15|f 2/q 3/
  > 1 Syntax at line 15|r/q 3/
  > 1 Syntax at line 16|x/q/
  > 1 Syntax at line 16|x/q 3 3/
  > 1 Syntax at line 16|x/q 03/
  > 1 Syntax at line 16|x/q x/
  > refused 9 LeafNotEmpty line 16|x/q none/
  > refused 9 LeafNotEmpty line 19|x/f 3/f 2/t 0 2/q none/
  > 1 Syntax at line 16|x/q none 3/
  > 1 Syntax at line 16|x/q nonE/
  > 1 Syntax at line 16|x/q  3/
  > 1 Syntax at line 16|x/x/q 3/
  > 1 Syntax at line 16|x/h 1/q 3/
  > 1 Syntax at line 16|x/o 1/q 3/
  > 1 Syntax at line 16|x/s 0/q 3/
  > 1 Syntax at line 16|x/b a 3/q 3/
  > 1 Syntax at line 16|x/p 3/q 3/
  > 1 Syntax at line 16|x/none/q 3/
  > 1 Syntax at line 16|x/F 2/q 3/
  > 1 Syntax at line 16|x/f  2/q 3/
  > 1 Syntax at line 16|x/f 02/q 3/
  > 1 Syntax at line 16|x/f 2 /q 3/
  > 1 Syntax at line 16|x/f2/q 3/
  > 1 Syntax at line 16|x/f -2/q 3/
  > 1 Syntax at line 16|x/f 2\r/q 3/
  > 1 Syntax at line 16|x//q 3/
  > 3 Trailing at line 17|x/q 3/x/q 3/
  > 3 Trailing at line 17|x/q 3/x
  > 2 UnexpectedEnd at line 15|x
  > 2 UnexpectedEnd at line 16|x/
  > 2 UnexpectedEnd at line 16|x/f
  > 2 UnexpectedEnd at line 16|x/f 2
  > 2 UnexpectedEnd at line 17|x/f 2/
  > 2 UnexpectedEnd at line 16|x/q
  > 2 UnexpectedEnd at line 16|x/q 3
  > 2 UnexpectedEnd at line 16|x/q no
  > 2 UnexpectedEnd at line 18|s 0/x/q 3/
  > END
  50 rows

Leaves by spans stand among others, in version 4 alone.

  $ bash rows inverter.v 'tdelay-cert ' <<'END'
  > accepted 3|4/circuit 1 1/default 1 1/output all/first ./second ./hold ./flips 1/at 0/keep none/time 3/high 3/from 0/to 1/s 0/b e 3/x/q 2/
  > 1 Syntax at line 17|4/circuit 1 1/default 1 1/output all/first ./second ./hold ./flips 1/at 0/keep none/time 3/high 3/from 0/to 1/s 0/b a 3/r/q 3/
  > 1 Syntax at line 11|3/circuit 1 1/first ./second ./hold ./flips 1/at 7/time 10/from 0/to 1/x/q 10/
  > 1 Syntax at line 10|2/circuit 1 1/first ./second ./hold ./flips 0/time 0/from 0/to 0/x/q 3/
  > 1 Syntax at line 6|1/circuit 1 1/time 3/from 0/to 1/x/q 3/
  > END
  5 rows

A gate of constants, without an input: constants have their levels where no literal says another one.

  $ echo "module t (y); output y; and #1 g(y,1'b1,1'b1); endmodule" > constant.v
  $ bash rows constant.v 'tdelay-cert 4/circuit 0 1/default 1 1/output all/first none/second none/hold none/flips 0/at none/keep none/time 0/high 0/from none/to none/' <<'END'
  > accepted 0|x/w 2 1 0/g 0/q 0/
  > refused 10 BadStep line 17|x/w 2 0 0/g 0/q 0/
  > accepted 0|x/f 2/i 2/t 0/t 2/q 0/
  > refused 10 BadStep line 17|x/f 2/t 1/q 0/
  > refused 10 BadStep line 18|x/w 2 1 0/f 1/g 0 2/q 0/
  > accepted 0|x/w 2 0 0/f 1/g 0 2/q 0/
  > refused 10 BadStep line 17|x/w 1 1 0/g 0/q 0/
  > accepted 0|x/f 2/f 1/t 0 3/q 0/
  > accepted 0|x/f 2/f 1/t 1 2/q 0/
  > END
  9 rows

Parts of which one has a leaf by spans are joined into one of version 4, the leaf as it was.

  $ printf 'tdelay-cert 2\ncircuit 1 2\nfirst 0\nsecond .\nhold .\nflips 1\ntime 2\nfrom 0\nto 1\ns 1\nb a 0\np 2\n' > zero; tdelay check early.v zero | head -n 1
  accepted 2
  $ printf '%b' 'tdelay-cert 4\ncircuit 1 2\ndefault 1 1\noutput all\nfirst 1\nsecond .\nhold .\nflips 1\nat 0\nkeep none\ntime 4\nhigh 4\nfrom 1\nto 0\nx\nf 2\nf 3\nf 4\nw 4 0 5\nt 2 1\nt 4 1 3\ng 6 0\ne 4 0 5 2 4 6 2 0 1\nq 4\n' > one; tdelay check early.v one | head -n 1
  accepted 4
  $ tdelay join early.v zero one --cert whole
  unit 1 ns
  defaulted 0
  exact 4
  from 1
  to 0
  nodes 5
  $ cat whole
  tdelay-cert 4
  circuit 1 2
  default 1 1
  output all
  first .
  second .
  hold .
  flips 1
  at 0
  keep none
  time 4
  high 4
  from 1
  to 0
  s 0
  s 1
  b a 0
  p 2
  x
  f 2
  f 3
  f 4
  w 4 0 5
  t 2 1
  t 4 1 3
  g 6 0
  e 4 0 5 2 4 6 2 0 1
  q 4
  $ tdelay check early.v whole
  accepted 4

Each part's steps are looked at, with `--no-check` they aren't.

  $ tdelay join early.v zero one | head -n 3
  unit 1 ns
  defaulted 0
  exact 4
  $ sed 's/ 2 0 1$/ 2 0/' one > hintless
  $ tdelay join early.v zero hintless
  tdelay: hintless: refused 10 BadStep line 23
  [4]
  $ tdelay join early.v zero hintless --no-check --cert whole | head -n 3
  unit 1 ns
  defaulted 0
  unchecked 4
  $ tdelay check early.v whole
  refused 10 BadStep line 27
  [4]
