Dumps of runs. An inverter with rise delay 2 and fall delay 3: its input rises; becomes unknown; stays; and begins unknown. The levels before
the first change stand under #0, those from moment t on under #(t+1).

  $ cat > inverter.v <<'END'
  > module t (a, y);
  > input a;
  > output y;
  > not #(2,3) g(y,a);
  > endmodule
  > END
  $ tdelay sim inverter.v 0 1 --vcd -
  $version tdelay 1 $end
  $timescale 1 ns $end
  $scope module t $end
  $var wire 1 ! a $end
  $var wire 1 " y $end
  $upscope $end
  $enddefinitions $end
  #0
  $dumpvars
  0!
  1"
  $end
  #1
  1!
  #4
  0"
  $ tdelay sim inverter.v 0 x --vcd - | sed '1,/enddefinitions/d' | paste -sd' '
  #0 $dumpvars 0! 1" $end #1 x! #3 x"
  $ tdelay sim inverter.v 0 0 --vcd - | sed '1,/enddefinitions/d' | paste -sd' '
  #0 $dumpvars 0! 1" $end
  $ tdelay sim inverter.v x 0 --vcd - | sed '1,/enddefinitions/d' | paste -sd' '
  #0 $dumpvars x! x" $end #1 0! #3 1"

With `--net` it has these nets alone, in the order in which they are given.

  $ tdelay sim inverter.v 0 1 --vcd - --net y | sed '1,/scope module/d' | paste -sd' '
  $var wire 1 ! y $end $upscope $end $enddefinitions $end #0 $dumpvars 1! $end #4 0!
  $ tdelay sim inverter.v 0 1 --net y --vcd both.vcd --net=a
  unit 1 ns
  defaulted 0
  last y 3
  time 3
  $ sed '1,/scope module/d' both.vcd | paste -sd' '
  $var wire 1 ! y $end $var wire 1 " a $end $upscope $end $enddefinitions $end #0 $dumpvars 1! 0" $end #1 1" #4 0!
  $ tdelay sim inverter.v 0 1 --vcd - --net b
  tdelay: no net b
  [2]

It wants a dump.

  $ tdelay sim nowhere.v 0 1 --net y
  tdelay: --net wants --vcd: write --vcd OUT beside it
  [2]
  $ tdelay worst inverter.v --vcd - --net y 2>&1 | head -1
  error: unexpected argument '--net' found
  $ tdelay sim inverter.v 0 1 --vcd - --net 2>&1 | head -1
  error: a value is required for '--net <NAME>' but none was supplied

A pulse of one moment.

  $ echo 'module t (a, y); input a; output y; not #1 n(b,a); and #1 g(y,a,b); endmodule' > pulse.v
  $ tdelay sim pulse.v 0 1 --vcd -
  $version tdelay 1 $end
  $timescale 1 ns $end
  $scope module t $end
  $var wire 1 ! a $end
  $var wire 1 " b $end
  $var wire 1 # y $end
  $upscope $end
  $enddefinitions $end
  #0
  $dumpvars
  0!
  1"
  0#
  $end
  #1
  1!
  #2
  0"
  1#
  #3
  0#

Constants have no variable.

  $ echo "module t (y); output y; and #1 g(y,1'b1,1'b1); endmodule" > constant.v
  $ tdelay sim constant.v none none --vcd -
  $version tdelay 1 $end
  $timescale 1 ns $end
  $scope module t $end
  $var wire 1 ! y $end
  $upscope $end
  $enddefinitions $end
  #0
  $dumpvars
  1!
  $end

Names of each kind, and another unit.

  $ cat > names.v <<'END'
  > `timescale 10ps/10ps
  > module \a+b (input [1:0] a, input \p+q , output y);
  > and (y, a[1], a[0], \p+q );
  > endmodule
  > END
  $ tdelay sim names.v 000 000 --vcd -
  $version tdelay 1 $end
  $timescale 10 ps $end
  $scope module \a+b $end
  $var wire 1 ! a[1] $end
  $var wire 1 " a[0] $end
  $var wire 1 # \p+q $end
  $var wire 1 $ y $end
  $upscope $end
  $enddefinitions $end
  #0
  $dumpvars
  0!
  0"
  0#
  0$
  $end

A pulse of one moment where the input changes at 7, by the two commands that write waves.

  $ tdelay sim pulse.v 0 1 --at 7 --vcd - | sed '1,/enddefinitions/d' | paste -sd' '
  #0 $dumpvars 0! 1" 0# $end #8 1! #9 0" 1# #10 0#
  $ tdelay worst pulse.v --at 7 --vcd - | sed '1,/enddefinitions/d' | paste -sd' '
  #0 $dumpvars 0! 1" 0# $end #8 1! #9 0" 1# #10 0#
