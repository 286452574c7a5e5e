.class public Main
.super java/lang/Object

.method public static main([Ljava/lang/String;)V
    .limit stack 8
    .limit locals 8
    aconst_null
    iconst_0
    aconst_null
    aastore
    return
.end method
