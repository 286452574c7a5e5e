; The first twenty Fibonacci numbers, parted by blanks.
.class public Fibonacci
.super java/lang/Object

.method public static main([Ljava/lang/String;)V
    .limit stack 3
    .limit locals 4
    iconst_0
    istore_1
    iconst_1
    istore_2
    bipush 20
    istore_3
Each:
    getstatic java/lang/System/out Ljava/io/PrintStream;
    dup
    iload_1
    invokevirtual java/io/PrintStream/print(I)V
    bipush 32
    invokevirtual java/io/PrintStream/print(C)V
    iload_2
    iload_1
    iload_2
    iadd
    istore_2
    istore_1
    iinc 3 -1
    iload_3
    ifne Each
    getstatic java/lang/System/out Ljava/io/PrintStream;
    invokevirtual java/io/PrintStream/println()V
    return
.end method
