The first fault of a text by its tokens and its grammar. Each row has what is wrong with a text, a bar, and the text. `ok` is also what is
found behind the grammar: faults 8 to 13 and 15, which are of names and drivers, and loops.

  $ cat > rows <<'END'
  > #!/usr/bin/env bash
  > # Reads rows: what is wrong with a netlist, or ok, a bar, and its text with the escapes of printf. Prints the rows of which `tdelay info`
  > # says something else, with that, and how many rows there were. Faults 8 to 13 and 15, and loops, are ok.
  > count=0
  > while IFS='|' read -r said text; do
  >   printf '%b' "$text" > t.v
  >   if found=$(tdelay info t.v 2>&1 > info); then found=ok; fi
  >   found=${found#tdelay: netlist fault }
  >   case $found in
  >     8\ * | 9\ * | 1[0-35]\ * | 'tdelay: circuit fault '*) found=ok ;;
  >   esac
  >   [ "$found" = "$said" ] || echo "$found|$text"
  >   count=$((count + 1))
  > done
  > echo $count rows
  > END

Tokens.

  $ bash rows <<'END'
  > 2 UnexpectedEnd at line 3|module t; /* open\n\n
  > 2 UnexpectedEnd at line 1|module t; /*/ wire a; endmodule
  > 1 BadByte at line 2|module t;\n\x01
  > ok|module t;\n// \x01\x80\n/* \x01 */ endmodule
  > ok|module\tt\x0c;\r\nendmodule
  > 4 OutOfSubset at line 1 (`x)|module t; `x endmodule
  > 4 OutOfSubset at line 1 (`)|module t; `1x endmodule
  > 4 OutOfSubset at line 1 (@)|module t; @ endmodule
  > 4 OutOfSubset at line 1 (/)|module t; wire a /
  > 4 OutOfSubset at line 1 (`)|module t; wire a`
  > ok|module \\t ; endmodule
  > ok|module t(\\a+b\t, y); endmodule
  > ok|module t; wire \\wire ; wire \\// ; endmodule
  > 3 Syntax at line 1|module t; wire \\
  > 3 Syntax at line 2|module t;\nwire \\ a; endmodule
  > 1 BadByte at line 1|module t; wire \\a\x80 ; endmodule
  > 1 BadByte at line 1|module t; wire \\\x80 ; endmodule
  > 1 BadByte at line 1|module t; wire \\\x01 ; endmodule
  > 2 UnexpectedEnd at line 1|module t; wire \\a
  > 4 OutOfSubset at line 1 (\foo)|module t; \\foo (a); endmodule
  > ok|module t; wire _a$1, A; endmodule
  > 4 OutOfSubset at line 1 ($)|module t; wire $a; endmodule
  > 4 OutOfSubset at line 1 (reg)|module t; wire reg; endmodule
  > 4 OutOfSubset at line 1 (wor)|module t; wire wor, always1; endmodule
  > ok|module t; wire always1, regs, xorx, Reg; endmodule
  > 3 Syntax at line 1|module t; wire or; endmodule
  > 4 OutOfSubset at line 1 (")|module t; wire "a"; endmodule
  > END
  27 rows

Numbers.

  $ bash rows <<'END'
  > 4 OutOfSubset at line 1 (1e3)|module t; not #1e3 (y, a); endmodule
  > 4 OutOfSubset at line 1 (1_e.3$)|module t; not #1_e.3$ (y, a); endmodule
  > 4 OutOfSubset at line 1 (1.5e3)|module t; not #1.5e3 (y, a); endmodule
  > 3 Syntax at line 1|module t; not #1. (y, a); endmodule
  > 3 Syntax at line 2|module t; not\n#1.
  > 3 Syntax at line 1|module t; not #1._5 (y, a); endmodule
  > 3 Syntax at line 1|module t; not #1.x (y, a); endmodule
  > 4 OutOfSubset at line 1 (.)|module t; not #1.0.5 (y, a); endmodule
  > 4 OutOfSubset at line 1 (.)|module t; not #.5 (y, a); endmodule
  > 4 OutOfSubset at line 1 (_1)|module t; not #_1 (y, a); endmodule
  > ok|module t; not #1_0 (y, a); endmodule
  > ok|module t; not #1_.0_0_ (y, a); endmodule
  > 4 OutOfSubset at line 1 (1'b1)|module t; not #1'b1 (y, a); endmodule
  > ok|module t; not (y, 1'b0); endmodule
  > ok|module t; and (y, 1'B0, 1'b1, 1'B1); endmodule
  > 4 OutOfSubset at line 1 (1'b2)|module t; not (y, 1'b2); endmodule
  > 4 OutOfSubset at line 1 (1'h0)|module t; not (y, 1'h0); endmodule
  > 4 OutOfSubset at line 1 (1_'b0)|module t; not (y, 1_'b0); endmodule
  > 4 OutOfSubset at line 1 (1.5'b0)|module t; not (y, 1.5'b0); endmodule
  > 3 Syntax at line 1|module t; not (y, 1.'b0); endmodule
  > 4 OutOfSubset at line 1 (1')|module t; not (y, 1'
  > 3 Syntax at line 1|module t; not (y, 1'b0_1); endmodule
  > 4 OutOfSubset at line 1 (1'bx01)|module t; not (y, 1'bx01); endmodule
  > 4 OutOfSubset at line 1 (1'b0)|module t; wire 1'b0; endmodule
  > END
  24 rows

Delays.

  $ bash rows <<'END'
  > 4 OutOfSubset at line 1 (d)|module t; not #d (y, a); endmodule
  > 4 OutOfSubset at line 1 (\d)|module t; not #\\d (y, a); endmodule
  > 4 OutOfSubset at line 1 (d)|module t; not #(d) (y, a); endmodule
  > 4 OutOfSubset at line 1 (d)|module t; not #(1 d) (y, a); endmodule
  > 4 OutOfSubset at line 1 (d)|module t; not #(1,d) (y, a); endmodule
  > 4 OutOfSubset at line 1 (d)|module t; not #(1,2 d) (y, a); endmodule
  > 4 OutOfSubset at line 1 (,)|module t; not #(1,2,3) (y, a); endmodule
  > 4 OutOfSubset at line 1 (:)|module t; not #(1:2:3) (y, a); endmodule
  > 3 Syntax at line 1|module t; not #(1 2) (y, a); endmodule
  > 3 Syntax at line 1|module t; not #() (y, a); endmodule
  > ok|module t; not # (1) (y, a); endmodule
  > 5 ZeroDelay at line 1|module t; not #0 (y, a); endmodule
  > 5 ZeroDelay at line 2|module t; not #(1,\n0_0) (y, a); endmodule
  > 5 ZeroDelay at line 1|module t; not #0.0 (y, a); endmodule
  > 6 DelayTooFine at line 1|module t; not #0.1 (y, a); endmodule
  > ok|module t; not #1.0_0 (y, a); endmodule
  > 6 DelayTooFine at line 1|module t; not #1.001 (y, a); endmodule
  > ok|module t; not #1000000000 (y, a); endmodule
  > 7 DelayTooLarge at line 1|module t; not #1000000001 (y, a); endmodule
  > 6 DelayTooFine at line 1|module t; not #1000000001.5 (y, a); endmodule
  > 7 DelayTooLarge at line 1|module t; not #99999999999999999999999 (y, a); endmodule
  > ok|`timescale 1ns/100ps\nmodule t;\nnot #1.2 (y, a); endmodule
  > 6 DelayTooFine at line 3|`timescale 1ns/100ps\nmodule t;\nnot #1.25 (y, a); endmodule
  > ok|`timescale 1ns/100ps\nmodule t;\nnot #1.2_0 (y, a); endmodule
  > 5 ZeroDelay at line 2|`timescale 1ns/100ps\nmodule t; not #0.0 (y, a); endmodule
  > ok|`timescale 1ns/100ps\nmodule t; not #100000000 (y, a); endmodule
  > 7 DelayTooLarge at line 2|`timescale 1ns/100ps\nmodule t; not #100000000.1 (y, a); endmodule
  > ok|`timescale 100s/1fs\nmodule t; not #0.00000_00000_00000_01 (y, a); endmodule
  > 6 DelayTooFine at line 2|`timescale 100s/1fs\nmodule t; not #0.00000_00000_00000_001 (y, a); endmodule
  > 7 DelayTooLarge at line 2|`timescale 100s/1fs\nmodule t; not #1 (y, a); endmodule
  > 6 DelayTooFine at line 3|`timescale 1ns/1ps\n`timescale 1ns/1ns\nmodule t; not #1.5 (y, a); endmodule
  > ok|`timescale 1ns/1ns\n`timescale 1ns/1ps\nmodule t; not #1.5 (y, a); endmodule\n`timescale 1ns/1ns
  > 6 DelayTooFine at line 3|`timescale 1ns/1ns\n`celldefine\nmodule t; not #1.5 (y, a); endmodule
  > END
  33 rows

Directives.

  $ bash rows <<'END'
  > ok|`timescale 1ns/1ps module t; endmodule
  > ok|`timescale 1ns/1psmodule t; endmodule
  > ok|`timescale\n10 us\t/ 1\r\nfs module t; endmodule
  > ok|`timescale 100ms/100ms module t; endmodule
  > ok|`timescale 1s/1s module t; endmodule
  > ok|`celldefine module t; endmodule `endcelldefine
  > ok|`celldefine (* a *) `timescale 1ns/1ns (* b *) module t; endmodule `celldefine `timescale 1ns/1ps
  > 3 Syntax at line 2|\n`timescale 1ns\n/1us module t; endmodule
  > 3 Syntax at line 1|`timescale 10ns/100ns module t; endmodule
  > 3 Syntax at line 1|`timescale 2ns/1ns module t; endmodule
  > 3 Syntax at line 1|`timescale 1000ns/1ns module t; endmodule
  > 3 Syntax at line 1|`timescale 1 0ns/1ns module t; endmodule
  > 3 Syntax at line 1|`timescale 1n s/1ns module t; endmodule
  > 3 Syntax at line 1|`timescale 1ks/1ns module t; endmodule
  > 3 Syntax at line 1|`timescale 1ns 1ns module t; endmodule
  > 3 Syntax at line 1|`timescale 1ns/* a */ /1ns module t; endmodule
  > 3 Syntax at line 1|`timescale 1ns/\x01
  > 4 OutOfSubset at line 1 (`timescale1ns)|`timescale1ns/1ns module t; endmodule
  > 2 UnexpectedEnd at line 2|`timescale\n
  > 2 UnexpectedEnd at line 1|`timescale
  > 2 UnexpectedEnd at line 1|`timescale 1
  > 2 UnexpectedEnd at line 1|`timescale 1n
  > 2 UnexpectedEnd at line 3|`timescale 1ns\n\n
  > 2 UnexpectedEnd at line 1|`timescale 1ns/10
  > 2 UnexpectedEnd at line 1|`timescale 1ns/10m
  > 2 UnexpectedEnd at line 1|`timescale 1ns/1ps
  > 4 OutOfSubset at line 1 (`include)|`include module t; endmodule
  > 4 OutOfSubset at line 1 (`)|` timescale 1ns/1ns module t; endmodule
  > 4 OutOfSubset at line 1 (`timescale)|module t; `timescale 1ns/1ns endmodule
  > 4 OutOfSubset at line 1 (`timescale)|module t; `timescale 9
  > 4 OutOfSubset at line 2 (`timescale)|module t;\n`timescale\x20
  > 4 OutOfSubset at line 1 (`celldefine)|module t; `celldefine endmodule
  > 2 UnexpectedEnd at line 2|module t; endmodule\n`timescale 1ns
  > 3 Syntax at line 2|module t; endmodule\n`timescale 1ns/2ns
  > 4 OutOfSubset at line 1 (`x)|module t; endmodule `x
  > 4 OutOfSubset at line 2 (module)|module t; endmodule `celldefine\nmodule
  > END
  36 rows

Attributes, and quoted texts in them.

  $ bash rows <<'END'
  > ok|(* a, b = "c" *) module t; endmodule
  > ok|module t; (* a *) (* b *) wire b; (**) and (y, a); endmodule
  > ok|module t; (* "*)" *) wire b; endmodule
  > ok|module t; (* "\\"*)" *) wire b; endmodule
  > 2 UnexpectedEnd at line 2|module t; (* " *) wire b; endmodule\n
  > 2 UnexpectedEnd at line 2|module t; (*) wire b;\nendmodule
  > ok|module t; (***) wire b; endmodule
  > ok|module t; (* \x01\x80\n// *) wire b; endmodule
  > 2 UnexpectedEnd at line 1|module t; (* \\" *) wire b; endmodule
  > 3 Syntax at line 2|module t; (* a *)\nendmodule
  > 4 OutOfSubset at line 1 (foo)|module t; (* a *) foo (x); endmodule
  > 3 Syntax at line 1|module t; (* a *) ; endmodule
  > 4 OutOfSubset at line 1 ((*)|module t; wire (* a *) b; endmodule
  > 2 UnexpectedEnd at line 2|module t; wire b (* \n
  > 4 OutOfSubset at line 1 ((*)|module (* a *) t; endmodule
  > 4 OutOfSubset at line 2 ((*)|module t; endmodule\n(* a *)
  > 4 OutOfSubset at line 1 ((*)|module t; not (* a *) (y, a); endmodule
  > ok|module t ((* a *) input a, (* b *) output y); endmodule
  > 3 Syntax at line 2|module t ((* a *)\nb); endmodule
  > 4 OutOfSubset at line 1 ((*)|module t (a, (* a *) input b); endmodule
  > 3 Syntax at line 2|module t (input a, (* a *)\nb); endmodule
  > END
  21 rows
  $ bash rows <<'END'
  > ok|module t; (* "" *) wire b; endmodule
  > 4 OutOfSubset at line 3 (@)|module t; (* "*)\n*)" *)\n@
  > 3 Syntax at line 2|module t; (* " *) wire b; (* " *)\nendmodule
  > ok|module t; (* "a\\\\" *) wire b; endmodule
  > 2 UnexpectedEnd at line 2|module t; (* "a\\\\\\" *) wire b; \n
  > 4 OutOfSubset at line 3 (@)|module t; (* "\\\n"*)\n@
  > 4 OutOfSubset at line 2 (@)|module t; (*"a"*"b"*)\n@
  > 4 OutOfSubset at line 2 (@)|module t; (*"a*") wire b; *)\n@
  > ok|module t; (*)*) wire b; endmodule
  > ok|module t; (* * ) *) wire b; endmodule
  > 3 Syntax at line 1|module t; ( * a *) wire b; endmodule
  > 2 UnexpectedEnd at line 1|(*
  > 2 UnexpectedEnd at line 2|(* "*)\n*
  > 3 Syntax at line 1|(
  > END
  14 rows

Declarations.

  $ bash rows <<'END'
  > ok|module t; wire [1:0] a; endmodule
  > ok|module t; input wire [0:3] a, b; output [7:7] y; endmodule
  > ok|module t; wire [1000000000:1000000000] a; endmodule
  > 14 TooMany at line 2|module t; wire [0:\n1000000001] a; endmodule
  > 14 TooMany at line 2|module t; wire\n[1000000001:1000000001] w; endmodule
  > 14 TooMany at line 1|module t; wire [1_000000001:x] w; endmodule
  > 3 Syntax at line 1|module t; wire [1:x] w; endmodule
  > 3 Syntax at line 1|module t; wire [1] a; endmodule
  > 3 Syntax at line 1|module t; wire [1;0] a; endmodule
  > 4 OutOfSubset at line 1 (:)|module t; wire [1:0:2] a; endmodule
  > 4 OutOfSubset at line 1 (:)|module t; wire [:0] a; endmodule
  > 3 Syntax at line 1|module t; wire [1.0:0] a; endmodule
  > 4 OutOfSubset at line 1 (1'b0)|module t; wire [1'b0:0] a; endmodule
  > 3 Syntax at line 1|module t; wire [a:0] a; endmodule
  > 3 Syntax at line 1|module t; wire [1:0] [1:0] a; endmodule
  > 3 Syntax at line 1|module t; wire a [1:0]; endmodule
  > 4 OutOfSubset at line 1 (:)|module t; wire a : b; endmodule
  > 3 Syntax at line 1|module t; wire [1:0]; endmodule
  > 3 Syntax at line 1|module t; wire ; endmodule
  > 3 Syntax at line 1|module t; wire a b; endmodule
  > 4 OutOfSubset at line 1 (()|module t; wire (a; endmodule
  > 4 OutOfSubset at line 1 (#)|module t; wire #1 a; endmodule
  > 3 Syntax at line 1|module t; wire [1:0] #1 w; endmodule
  > 4 OutOfSubset at line 1 (()|module t; input wire (a; endmodule
  > 3 Syntax at line 1|module t; input (a; endmodule
  > 3 Syntax at line 1|module t; wire wire a; endmodule
  > 3 Syntax at line 1|module t; input wire wire a; endmodule
  > 4 OutOfSubset at line 1 (reg)|module t; output reg a; endmodule
  > END
  28 rows

Ports.

  $ bash rows <<'END'
  > ok|module t (input a); endmodule
  > ok|module t (input wire [1:0] a, b, output y, z); endmodule
  > ok|module t (input [1:0] a, input b, output wire y); endmodule
  > 3 Syntax at line 1|module t (a, input b); endmodule
  > 3 Syntax at line 1|module t (input a, wire b); endmodule
  > 3 Syntax at line 1|module t (wire a); endmodule
  > 4 OutOfSubset at line 1 (inout)|module t (inout a); endmodule
  > 3 Syntax at line 1|module t (input a; endmodule
  > 3 Syntax at line 1|module t (input a,); endmodule
  > 3 Syntax at line 1|module t (input); endmodule
  > 4 OutOfSubset at line 1 (()|module t (input wire (a)); endmodule
  > 4 OutOfSubset at line 1 (#)|module t (input wire #1 a); endmodule
  > 14 TooMany at line 1|module t (input [1000000001:0] a); endmodule
  > 3 Syntax at line 1|module t (input a, [1:0] b); endmodule
  > 3 Syntax at line 1|module t (input [1:0] a b); endmodule
  > 3 Syntax at line 1|module t (a[1:0]); endmodule
  > 4 OutOfSubset at line 1 (.)|module t (.a(b)); endmodule
  > 3 Syntax at line 1|module t (a,, b); endmodule
  > 3 Syntax at line 1|module t (,); endmodule
  > ok|module t (); endmodule
  > ok|module t ( ) ; // none\n/* a\nb */ endmodule\n// end
  > 3 Syntax at line 1|module t endmodule
  > 3 Syntax at line 1|module 1; endmodule
  > END
  23 rows

Gates.

  $ bash rows <<'END'
  > ok|module t (a, y); input wire a; output y; not #(1_0, 2) (y, a), n (z, a); endmodule
  > 3 Syntax at line 1|module t; and (y); endmodule
  > 3 Syntax at line 3|module t; and (y\n\n); endmodule
  > 3 Syntax at line 1|module t; and (); endmodule
  > 3 Syntax at line 1|module t; and (y, a,); endmodule
  > 3 Syntax at line 1|module t; and (y, a) endmodule
  > 3 Syntax at line 1|module t; and (y, a),; endmodule
  > 3 Syntax at line 1|module t; and (y, a) b (z, a); endmodule
  > 4 OutOfSubset at line 1 (foo)|module t; foo (y, a); endmodule
  > 4 OutOfSubset at line 1 ([)|module t; not g[1:0](y, a); endmodule
  > 3 Syntax at line 1|module t; not [1:0] g (y, a); endmodule
  > 3 Syntax at line 1|module t; not g g (y, a); endmodule
  > ok|module t; not \\g (y[1], a[0]); endmodule
  > ok|module t; not (y[99999999999999], a); endmodule
  > 4 OutOfSubset at line 1 (:)|module t; not (y[1:0], a); endmodule
  > 3 Syntax at line 1|module t; not (y[1.5], a); endmodule
  > 3 Syntax at line 1|module t; not (y[i], a); endmodule
  > 3 Syntax at line 1|module t; not (y[], a); endmodule
  > 3 Syntax at line 1|module t; not (y[1][0], a); endmodule
  > 3 Syntax at line 1|module t; not (y, 1'b0[0]); endmodule
  > 3 Syntax at line 2|module t; and\n(1'b0, a); endmodule
  > 3 Syntax at line 1|module t; buf (1'b0)
  > 3 Syntax at line 2|module t; buf (y,\n1'b0,\na); endmodule
  > ok|module t; buf (y, z,\n1'b0); endmodule
  > ok|module t; nand (y, 1'b0, a); endmodule
  > 4 OutOfSubset at line 1 (strong0)|module t; not (strong0, a); endmodule
  > 3 Syntax at line 1|module t; not (input, a); endmodule
  > 3 Syntax at line 1|module t; not (1, a); endmodule
  > END
  28 rows

Ends of a text.

  $ bash rows <<'END'
  > 2 UnexpectedEnd at line 1|
  > 2 UnexpectedEnd at line 2|\n
  > 3 Syntax at line 1|wire a;
  > 3 Syntax at line 1|x
  > 3 Syntax at line 1|module t; and (y, a); endmodule x
  > 4 OutOfSubset at line 2 (module)|module t; endmodule\nmodule u; endmodule
  > 3 Syntax at line 1|module t; endmodule ;
  > 1 BadByte at line 1|module t; endmodule \x01
  > 2 UnexpectedEnd at line 2|module t; endmodule /*\n
  > 3 Syntax at line 1|module t; endmodule \\
  > 3 Syntax at line 1|module t; module
  > 3 Syntax at line 1|module t; ; endmodule
  > ok|module t; endmodule // end
  > END
  13 rows

Escaped names.

  $ bash rows <<'END'
  > 2 UnexpectedEnd at line 1|module \\t
  > 2 UnexpectedEnd at line 2|module \\t\n
  > ok|module \\t;\n;endmodule
  > 3 Syntax at line 2|module t; wire \\a;\nendmodule
  > 4 OutOfSubset at line 3 (@)|module t; wire \\a\n,b;\n@
  > ok|module t; wire \\a\x0c, \\b\t, \\c\r; endmodule
  > ok|module t; wire \\!~(*/*//`#"\\ ; endmodule
  > 1 BadByte at line 1|module t; wire \\a\x7f ; endmodule
  > 1 BadByte at line 1|module t; wire \\a\x1f; endmodule
  > 1 BadByte at line 1|module t; wire \\a\xff
  > 4 OutOfSubset at line 1 (\1)|module t; not #\\1 (y, a); endmodule
  > 4 OutOfSubset at line 2 (\d)|module t; not #(1,2\n\\d
  > END
  12 rows

Reserved words of the subset and outside it are no names, but they are as escaped ones and with one byte more.

  $ cat > subset <<'END'
  > and buf endmodule input module nand nor not or output wire xnor xor
  > END
  $ cat > outside <<'END'
  > always assign automatic begin bufif0 bufif1 case casex casez cell cmos config deassign default defparam design disable
  > edge else end endcase endconfig endfunction endgenerate endprimitive endspecify endtable endtask event for force forever
  > fork function generate genvar highz0 highz1 if ifnone incdir include initial inout instance integer join large liblist
  > library localparam macromodule medium negedge nmos noshowcancelled notif0 notif1 parameter pmos posedge primitive pull0
  > pull1 pulldown pullup pulsestyle_ondetect pulsestyle_onevent rcmos real realtime reg release repeat rnmos rpmos rtran
  > rtranif0 rtranif1 scalared showcancelled signed small specify specparam strong0 strong1 supply0 supply1 table task time
  > tran tranif0 tranif1 tri tri0 tri1 triand trior trireg unsigned use uwire vectored wait wand weak0 weak1 while wor
  > END
  $ wc -w subset outside
   13 subset
  111 outside
  124 total
  $ for word in $(cat subset outside); do
  >   told="4 OutOfSubset at line 2 ($word)"
  >   grep -qw $word subset && told='3 Syntax at line 2'
  >   echo "$told|module t;\nwire $word; endmodule"
  >   echo "ok|module t;\nwire \\\\$word ; endmodule"
  >   echo "ok|module t;\nwire ${word}_; endmodule"
  > done | bash rows
  372 rows

Each front of an inverter's text, grouped by what is told of it.

  $ cat > inverter.v <<'END'
  > module t (a, y);
  > input a;
  > output y;
  > not #(2,3) g(y,a);
  > endmodule
  > END
  $ for length in $(seq 0 65); do head -c $length inverter.v > t.v; tdelay info t.v 2>&1 | head -n 1; done | uniq -c | sed 's/^ *//'
  1 tdelay: netlist fault 2 UnexpectedEnd at line 1
  5 tdelay: netlist fault 3 Syntax at line 1
  11 tdelay: netlist fault 2 UnexpectedEnd at line 1
  1 tdelay: netlist fault 2 UnexpectedEnd at line 2
  1 tdelay: netlist fault 4 OutOfSubset at line 2 (i)
  1 tdelay: netlist fault 4 OutOfSubset at line 2 (in)
  1 tdelay: netlist fault 4 OutOfSubset at line 2 (inp)
  1 tdelay: netlist fault 4 OutOfSubset at line 2 (inpu)
  4 tdelay: netlist fault 2 UnexpectedEnd at line 2
  1 tdelay: netlist fault 2 UnexpectedEnd at line 3
  1 tdelay: netlist fault 4 OutOfSubset at line 3 (o)
  1 tdelay: netlist fault 4 OutOfSubset at line 3 (ou)
  1 tdelay: netlist fault 4 OutOfSubset at line 3 (out)
  1 tdelay: netlist fault 4 OutOfSubset at line 3 (outp)
  1 tdelay: netlist fault 4 OutOfSubset at line 3 (outpu)
  4 tdelay: netlist fault 2 UnexpectedEnd at line 3
  1 tdelay: netlist fault 2 UnexpectedEnd at line 4
  1 tdelay: netlist fault 4 OutOfSubset at line 4 (n)
  1 tdelay: netlist fault 4 OutOfSubset at line 4 (no)
  16 tdelay: netlist fault 2 UnexpectedEnd at line 4
  1 tdelay: netlist fault 2 UnexpectedEnd at line 5
  1 tdelay: netlist fault 4 OutOfSubset at line 5 (e)
  1 tdelay: netlist fault 4 OutOfSubset at line 5 (en)
  1 tdelay: netlist fault 4 OutOfSubset at line 5 (end)
  1 tdelay: netlist fault 4 OutOfSubset at line 5 (endm)
  1 tdelay: netlist fault 4 OutOfSubset at line 5 (endmo)
  1 tdelay: netlist fault 4 OutOfSubset at line 5 (endmod)
  1 tdelay: netlist fault 4 OutOfSubset at line 5 (endmodu)
  1 tdelay: netlist fault 4 OutOfSubset at line 5 (endmodul)
  2 module t

Each front of a text with a `timescale` up to the module.

  $ cat > timescale.v <<'END'
  > `timescale 10 ns
  > /1ps module t; endmodule
  > END
  $ for length in $(seq 0 20); do head -c $length timescale.v > t.v; tdelay info t.v 2>&1 | head -n 1; done | uniq -c | sed 's/^ *//'
  1 tdelay: netlist fault 2 UnexpectedEnd at line 1
  1 tdelay: netlist fault 4 OutOfSubset at line 1 (`)
  1 tdelay: netlist fault 4 OutOfSubset at line 1 (`t)
  1 tdelay: netlist fault 4 OutOfSubset at line 1 (`ti)
  1 tdelay: netlist fault 4 OutOfSubset at line 1 (`tim)
  1 tdelay: netlist fault 4 OutOfSubset at line 1 (`time)
  1 tdelay: netlist fault 4 OutOfSubset at line 1 (`times)
  1 tdelay: netlist fault 4 OutOfSubset at line 1 (`timesc)
  1 tdelay: netlist fault 4 OutOfSubset at line 1 (`timesca)
  1 tdelay: netlist fault 4 OutOfSubset at line 1 (`timescal)
  7 tdelay: netlist fault 2 UnexpectedEnd at line 1
  4 tdelay: netlist fault 2 UnexpectedEnd at line 2
  $ tdelay info timescale.v
  module t
  unit 1 ps
  inputs 0
  outputs 0
  gates 0
  defaulted 0
  depth 0
  delay none

The limits of an instance's terminals and of gates, an instance of `buf` counted once for each of its outputs: the last that is taken, and
the first that is one too many. (The nets have several drivers, which is found later.)

  $ for count in 1023 1024; do
  >   { printf 'module t; and (y'; printf ',\na%.0s' $(seq $count); printf '); endmodule'; } > t.v
  >   tdelay info t.v
  > done
  tdelay: netlist fault 13 Undriven at line 2
  tdelay: netlist fault 14 TooMany at line 1025
  [1]
  $ for count in 199999 200000; do
  >   { printf 'module t; and '; yes '(y,a),' | head -n $count; printf '(y\n,a); endmodule'; } > t.v
  >   tdelay info t.v
  > done
  tdelay: netlist fault 11 TwoDrivers at line 2
  tdelay: netlist fault 14 TooMany at line 200001
  [1]
  $ for count in 99999 100000; do
  >   { printf 'module t; buf '; yes '(y,z,a),' | head -n $count; printf '(y\n,a); endmodule'; } > t.v
  >   tdelay info t.v
  > done
  tdelay: netlist fault 11 TwoDrivers at line 2
  tdelay: netlist fault 14 TooMany at line 100001
  [1]

The longest text that is read, which is a name here, and one of a byte more.

  $ for length in 67108864 67108865; do
  >   head -c $length /dev/zero | tr '\0' a > t.v
  >   tdelay info t.v
  > done
  tdelay: netlist fault 3 Syntax at line 1
  tdelay: netlist fault 14 TooMany at line 1
  [1]
