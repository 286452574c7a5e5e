.class public Main
.super java/lang/Object

.method public static main([Ljava/lang/String;)V
    .limit stack 8
    .limit locals 8
    getstatic java/lang/System/out Ljava/io/PrintStream;
    iconst_2
    newarray byte
    dup
    iconst_1
    ldc 456
    bastore
    iconst_1
    baload
    invokevirtual java/io/PrintStream/println(I)V
    return
.end method
