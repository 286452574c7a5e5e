; The dup2 forms: two ints are moved as one long is.
.class public StackOfLongs
.super java/lang/Object

.method public static main([Ljava/lang/String;)V
    .limit stack 10
    .limit locals 3
    iconst_1
    iconst_2
    dup2                ; 1 2 1 2
    iadd
    iadd
    iadd                ; 6
    istore_1
    lconst_1
    dup2                ; 1 1, longs
    ladd
    l2i                 ; 2
    iload_1
    imul                ; 12
    ldc2_w 30
    dup2_x1             ; 30 12 30
    l2i
    iadd                ; 30 42
    i2l
    dup2_x2             ; 42 30 42
    ladd
    lmul                ; 42 * 72
    lstore_1
    getstatic java/lang/System/out Ljava/io/PrintStream;
    lload_1
    invokevirtual java/io/PrintStream/println(J)V
    lload_1
    pop2
    return
.end method
