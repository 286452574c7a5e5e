.class public Main
.super java/lang/Object

.method public static main([Ljava/lang/String;)V
    .limit stack 8
    .limit locals 8
    iconst_1
    anewarray A
    iconst_0
    aaload
    getfield A/x I
    pop
    return
.end method
