.class public Main
.super java/lang/Object

.method public static main([Ljava/lang/String;)V
    .limit stack 8
    .limit locals 8
    .catch java/lang/ArithmeticException from A to B using H1
    .catch all from A to C using H2
A:
    iconst_1
    iconst_0
B:
    idiv
C:
    return
H1:
    getstatic java/lang/System/out Ljava/io/PrintStream;
    iconst_1
    invokevirtual java/io/PrintStream/println(I)V
    return
H2:
    getstatic java/lang/System/out Ljava/io/PrintStream;
    iconst_2
    invokevirtual java/io/PrintStream/println(I)V
    return
.end method
