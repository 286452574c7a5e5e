.class public Main
.super java/lang/Object

.field static c C = -1

.method public static main([Ljava/lang/String;)V
    .limit stack 8
    .limit locals 8
    getstatic java/lang/System/out Ljava/io/PrintStream;
    getstatic Main/c C
    invokevirtual java/io/PrintStream/println(I)V
    return
.end method
