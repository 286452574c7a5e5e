.class public Main
.super java/lang/Object

.method public static main([Ljava/lang/String;)V
    .limit stack 8
    .limit locals 8
    getstatic java/lang/System/out Ljava/io/PrintStream;
    ldc2_w -9223372036854775808
    invokevirtual java/io/PrintStream/println(J)V
    return
.end method
