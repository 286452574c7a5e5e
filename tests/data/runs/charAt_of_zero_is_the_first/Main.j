.class public Main
.super java/lang/Object

.method public static main([Ljava/lang/String;)V
    .limit stack 8
    .limit locals 8
    getstatic java/lang/System/out Ljava/io/PrintStream;
    ldc "abc"
    iconst_0
    invokevirtual java/lang/String/charAt(I)C
    invokevirtual java/io/PrintStream/println(C)V
    return
.end method
