.class public Main
.super java/lang/Object

.field static final c I = 42

.method public static main([Ljava/lang/String;)V
    .limit stack 8
    .limit locals 8
    getstatic java/lang/System/out Ljava/io/PrintStream;
    getstatic Main/c I
    invokevirtual java/io/PrintStream/println(I)V
    return
.end method
