.class public Main
.super java/lang/Object

.field static x I = 1
.field static x J = 2

.method public static main([Ljava/lang/String;)V
    .limit stack 8
    .limit locals 8
    getstatic java/lang/System/out Ljava/io/PrintStream;
    getstatic Main/x J
    invokevirtual java/io/PrintStream/println(J)V
    getstatic java/lang/System/out Ljava/io/PrintStream;
    getstatic Main/x I
    invokevirtual java/io/PrintStream/println(I)V
    return
.end method
