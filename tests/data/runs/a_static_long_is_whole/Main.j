.class public Main
.super java/lang/Object

.field static s J

.method public static main([Ljava/lang/String;)V
    .limit stack 8
    .limit locals 8
    ldc2_w -12345678901
    putstatic Main/s J
    getstatic java/lang/System/out Ljava/io/PrintStream;
    getstatic Main/s J
    invokevirtual java/io/PrintStream/println(J)V
    return
.end method
