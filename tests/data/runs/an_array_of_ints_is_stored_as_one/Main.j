.class public Main
.super java/lang/Object

.method public static main([Ljava/lang/String;)V
    .limit stack 8
    .limit locals 8
    iconst_1
    anewarray [I
    iconst_0
    iconst_1
    newarray int
    aastore
    getstatic java/lang/System/out Ljava/io/PrintStream;
    iconst_5
    invokevirtual java/io/PrintStream/println(I)V
    return
.end method
