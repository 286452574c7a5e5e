.class public Main
.super java/lang/Object

.method public static main([Ljava/lang/String;)V
    .limit stack 8
    .limit locals 8
    .catch java/lang/ArithmeticException from A to B using H
A:
    invokestatic Main/f()V
B:
    return
H:
    pop
    getstatic java/lang/System/out Ljava/io/PrintStream;
    iconst_3
    invokevirtual java/io/PrintStream/println(I)V
    return
.end method

.method static f()V
    .limit stack 8
    .limit locals 8
    .catch java/lang/ArithmeticException from A to B using H
    .catch java/lang/NullPointerException from B to C using H
A:
    iconst_1
    iconst_0
B:
    idiv
    pop
C:
    return
H:
    pop
    getstatic java/lang/System/out Ljava/io/PrintStream;
    iconst_1
    invokevirtual java/io/PrintStream/println(I)V
    return
.end method
