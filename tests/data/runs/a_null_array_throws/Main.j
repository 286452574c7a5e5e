.class public Main
.super java/lang/Object

.method public static main([Ljava/lang/String;)V
    .limit stack 8
    .limit locals 8
    aconst_null
    iconst_2
    iaload
    return
.end method
