.class public Main
.super java/lang/Object

.method public static main([Ljava/lang/String;)V
    .limit stack 8
    .limit locals 8
    iconst_1
    anewarray java/lang/String
    astore_1
    aload_1
    iconst_0
    ldc "abc"
    aastore
    getstatic java/lang/System/out Ljava/io/PrintStream;
    aload_1
    iconst_0
    aaload
    invokevirtual java/io/PrintStream/println(Ljava/lang/String;)V
    return
.end method
