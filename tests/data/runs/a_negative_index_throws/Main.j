.class public Main
.super java/lang/Object

.method public static main([Ljava/lang/String;)V
    .limit stack 8
    .limit locals 8
    iconst_2
    newarray int
    iconst_m1
    iaload
    return
.end method
