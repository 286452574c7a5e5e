.class public Main
.super java/lang/Object

.method public static main([Ljava/lang/String;)V
    .limit stack 8
    .limit locals 8
    .catch all from A to H using H
A:
    return
H:
    pop
    getstatic java/lang/System/out Ljava/io/PrintStream;
    iconst_5
    invokevirtual java/io/PrintStream/println(I)V
    return
.end method

.method static <clinit>()V
    .limit stack 8
    .limit locals 8
    iconst_1
    iconst_0
    idiv
    pop
    return
.end method
