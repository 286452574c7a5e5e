.class public Main
.super java/lang/Object

.field static s Z

.method public static main([Ljava/lang/String;)V
    .limit stack 8
    .limit locals 8
    ldc 6
    putstatic Main/s Z
    getstatic java/lang/System/out Ljava/io/PrintStream;
    getstatic Main/s Z
    invokevirtual java/io/PrintStream/println(I)V
    return
.end method
