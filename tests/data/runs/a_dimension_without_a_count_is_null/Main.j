.class public Main
.super java/lang/Object

.method public static main([Ljava/lang/String;)V
    .limit stack 8
    .limit locals 8
    iconst_2
    multianewarray [[I 1
    iconst_0
    aaload
    arraylength
    pop
    return
.end method
