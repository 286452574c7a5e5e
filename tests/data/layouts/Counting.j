.bytecode 52.0
.source Counting.java
.class public final Counting
.super java/lang/Thread
.implements Countable
.implements java/util/Shown

.field public static final NAME Ljava/lang/String; = "a \u0022 and \u005c"
.field static final MOST J = 9223372036854775807
.field private last [[I

.method protected abstract shown(ILjava/lang/String;)V
.end method

.method public static tally(IJ)J
  .limit stack 5
  .limit locals 4
  .catch java/lang/ArithmeticException from L0 to L4 using L12
  .catch all from L0 to L13 using L12
L0:
  .line 7
  ldc2_w          -9223372036854775808
  lload           1
  ldiv
  lstore_1
L4:
  .line 8
  .line 9
  iload_0
  tableswitch     -1
    L8
    L4
    L13
    default : L8
  iload_0
  lookupswitch
    -2147483648 : L4
    0 : L0
    2147483647 : L13
    default : L8
L8:
  iinc            0 -128
  iload_0
  ifne            L4
  goto_w          L13
L12:
  athrow
L13:
  ldc             "\u0000"
  ldc             65536
  lload_1
  invokeinterface Countable/shown(IJ)V 4
  sipush          -300
  newarray        boolean
  pop
  lload_1
  lreturn
.end method
