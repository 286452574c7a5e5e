.class public Main
.super java/lang/Object

.method public static main([Ljava/lang/String;)V
    .limit stack 8
    .limit locals 8
    iconst_2
    newarray int
    iconst_2
    iconst_1
    iastore
    return
.end method
