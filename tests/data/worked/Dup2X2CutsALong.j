.class public Main
.super java/lang/Object
.method public static main([Ljava/lang/String;)V
    .limit stack 8
    .limit locals 8
    iconst_1
    ldc2_w 2
    iconst_3
    dup2_x2
    return
.end method
