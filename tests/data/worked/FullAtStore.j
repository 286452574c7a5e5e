.class public Main
.super java/lang/Object
.method public static main([Ljava/lang/String;)V
    .limit stack 8
    .limit locals 8
    bipush 6
    anewarray java/lang/String
    astore_1
    aload_1
    iconst_0
    new Main
    aastore
    return
.end method
