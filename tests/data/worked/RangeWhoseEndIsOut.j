.class public Main
.super java/lang/Object
.method public static main([Ljava/lang/String;)V
    .limit stack 8
    .limit locals 8
    .catch java/lang/ArithmeticException from L0 to L1 using H1
    .catch all from L0 to L2 using H2
L0:
    iconst_1
    iconst_0
L1:
    idiv
L2:
    return
H1:
    getstatic java/lang/System/out Ljava/io/PrintStream;
    iconst_1
    invokevirtual java/io/PrintStream/println(I)V
    return
H2:
    getstatic java/lang/System/out Ljava/io/PrintStream;
    iconst_2
    invokevirtual java/io/PrintStream/println(I)V
    return
.end method
