.class public Main
.super java/lang/Object

.field static c J = 12345678901

.method public static main([Ljava/lang/String;)V
    .limit stack 8
    .limit locals 8
    getstatic java/lang/System/out Ljava/io/PrintStream;
    getstatic Main/c J
    invokevirtual java/io/PrintStream/println(J)V
    return
.end method
