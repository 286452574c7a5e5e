.class public Main
.super java/lang/Object

.method public static main([Ljava/lang/String;)V
    .limit stack 8
    .limit locals 8
    getstatic java/lang/System/out Ljava/io/PrintStream;
    invokestatic Main/f()J
    invokevirtual java/io/PrintStream/println(J)V
    return
.end method

.method static f()J
    .limit stack 8
    .limit locals 8
    ldc2_w 12345678901
    lreturn
.end method
