.class public Main
.super java/lang/Object

.method public static main([Ljava/lang/String;)V
    .limit stack 8
    .limit locals 8
    getstatic java/lang/System/out Ljava/io/PrintStream;
    ldc ""
    invokevirtual java/lang/String/length()I
    invokevirtual java/io/PrintStream/println(I)V
    return
.end method
