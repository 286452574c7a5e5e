; Long arithmetic: each takes two slots of the stack and two local variables.
.class public Longs
.super java/lang/Object

.method static print(J)V
    .limit stack 3
    .limit locals 2
    getstatic java/lang/System/out Ljava/io/PrintStream;
    lload_0
    invokevirtual java/io/PrintStream/println(J)V
    return
.end method

.method public static main([Ljava/lang/String;)V
    .limit stack 4
    .limit locals 5
    ldc2_w 9223372036854775807
    lstore_1
    ldc2_w -7
    lstore_3
    lload_1
    lconst_1
    ladd
    invokestatic Longs/print(J)V
    lload_1
    lload_3
    ldiv
    invokestatic Longs/print(J)V
    lload_1
    lload_3
    lrem
    invokestatic Longs/print(J)V
    lload_3
    lneg
    invokestatic Longs/print(J)V
    lload_1
    lload_3
    lxor
    invokestatic Longs/print(J)V
    lload_3
    bipush 60
    lushr
    invokestatic Longs/print(J)V
    lload_3
    iconst_1
    lshr
    invokestatic Longs/print(J)V
    lload_1
    l2i
    i2l
    invokestatic Longs/print(J)V
    return
.end method
