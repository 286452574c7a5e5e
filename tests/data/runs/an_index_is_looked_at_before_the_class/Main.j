.class public Main
.super java/lang/Object

.method public static main([Ljava/lang/String;)V
    .limit stack 8
    .limit locals 8
    iconst_1
    anewarray B
    iconst_1
    new A
    aastore
    return
.end method
