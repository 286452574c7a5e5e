.class public Main
.super java/lang/Object

.method public static main([Ljava/lang/String;)V
    .limit stack 8
    .limit locals 8
    iconst_2
    newarray int
    astore_1
    aload_1
    iconst_1
    iconst_4
    iastore
    getstatic java/lang/System/out Ljava/io/PrintStream;
    aload_1
    iconst_1
    iaload
    invokevirtual java/io/PrintStream/println(I)V
    return
.end method
