; 20! by a loop: the largest factorial that a long holds.
.class public LongFactorial
.super java/lang/Object

.method public static main([Ljava/lang/String;)V
    .limit stack 4
    .limit locals 5
    lconst_1
    lstore_1            ; the product
    lconst_1
    lstore_3            ; the factor
Again:
    lload_1
    lload_3
    lmul
    lstore_1
    lload_3
    lconst_1
    ladd
    lstore_3
    lload_3
    ldc2_w 20
    lcmp
    ifle Again
    getstatic java/lang/System/out Ljava/io/PrintStream;
    lload_1
    invokevirtual java/io/PrintStream/println(J)V
    return
.end method
