.class public Main
.super java/lang/Object

.field static c S = 65535

.method public static main([Ljava/lang/String;)V
    .limit stack 8
    .limit locals 8
    getstatic java/lang/System/out Ljava/io/PrintStream;
    getstatic Main/c S
    invokevirtual java/io/PrintStream/println(I)V
    return
.end method
