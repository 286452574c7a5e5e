.class public Main
.super java/lang/Object
.method public static main([Ljava/lang/String;)V
    .limit stack 8
    .limit locals 8
    iconst_0
    iconst_m1
    multianewarray [[I 2
    astore_1
    return
.end method
