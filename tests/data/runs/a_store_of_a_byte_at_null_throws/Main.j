.class public Main
.super java/lang/Object

.method public static main([Ljava/lang/String;)V
    .limit stack 8
    .limit locals 8
    aconst_null
    iconst_0
    iconst_1
    bastore
    return
.end method
