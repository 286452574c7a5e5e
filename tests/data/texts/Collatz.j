; How many steps 27 takes to 1.
.class public Collatz
.super java/lang/Object

.method public static main([Ljava/lang/String;)V
    .limit stack 2
    .limit locals 3
    bipush 27
    istore_1
    iconst_0
    istore_2
Step:
    iload_1
    iconst_1
    if_icmpeq One
    iinc 2 1
    iload_1
    iconst_1
    iand
    ifeq Even
    iload_1
    iconst_3
    imul
    iconst_1
    iadd
    istore_1
    goto Step
Even:
    iload_1
    iconst_2
    idiv
    istore_1
    goto Step
One:
    getstatic java/lang/System/out Ljava/io/PrintStream;
    iload_2
    invokevirtual java/io/PrintStream/println(I)V
    return
.end method
