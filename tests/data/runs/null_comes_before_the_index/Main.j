.class public Main
.super java/lang/Object

.method public static main([Ljava/lang/String;)V
    .limit stack 8
    .limit locals 8
    aconst_null
    iconst_m1
    iaload
    pop
    return
.end method
