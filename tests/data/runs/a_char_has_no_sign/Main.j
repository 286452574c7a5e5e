.class public Main
.super java/lang/Object

.method public static main([Ljava/lang/String;)V
    .limit stack 8
    .limit locals 8
    getstatic java/lang/System/out Ljava/io/PrintStream;
    iconst_2
    newarray char
    dup
    iconst_1
    ldc -1
    castore
    iconst_1
    caload
    invokevirtual java/io/PrintStream/println(I)V
    return
.end method
