.class public Main
.super java/lang/Object

.method public static main([Ljava/lang/String;)V
    .limit stack 8
    .limit locals 8
    getstatic java/lang/System/out Ljava/io/PrintStream;
    iconst_1
    anewarray B
    instanceof [LA;
    invokevirtual java/io/PrintStream/println(I)V
    return
.end method
