.class public Main
.super java/lang/Object

.field static s C

.method public static main([Ljava/lang/String;)V
    .limit stack 8
    .limit locals 8
    ldc -1
    putstatic Main/s C
    getstatic java/lang/System/out Ljava/io/PrintStream;
    getstatic Main/s C
    invokevirtual java/io/PrintStream/println(I)V
    return
.end method
