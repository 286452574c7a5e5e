.class public Main
.super java/lang/Object

.method public static main([Ljava/lang/String;)V
    .limit stack 8
    .limit locals 8
    iconst_1
    newarray long
    astore_1
    aload_1
    iconst_0
    ldc2_w 12345678901
    lastore
    getstatic java/lang/System/out Ljava/io/PrintStream;
    aload_1
    iconst_0
    laload
    invokevirtual java/io/PrintStream/println(J)V
    return
.end method
