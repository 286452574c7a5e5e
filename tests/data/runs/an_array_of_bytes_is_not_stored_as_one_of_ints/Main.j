.class public Main
.super java/lang/Object

.method public static main([Ljava/lang/String;)V
    .limit stack 8
    .limit locals 8
    iconst_1
    anewarray [I
    iconst_0
    iconst_1
    newarray byte
    aastore
    return
.end method
