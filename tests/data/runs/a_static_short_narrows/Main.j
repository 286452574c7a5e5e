.class public Main
.super java/lang/Object

.field static s S

.method public static main([Ljava/lang/String;)V
    .limit stack 8
    .limit locals 8
    ldc 65535
    putstatic Main/s S
    getstatic java/lang/System/out Ljava/io/PrintStream;
    getstatic Main/s S
    invokevirtual java/io/PrintStream/println(I)V
    return
.end method
