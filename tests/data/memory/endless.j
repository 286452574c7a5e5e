.class public Main
.super java/lang/Object
.method public static main([Ljava/lang/String;)V
    .limit stack 8
    .limit locals 8
L:
    bipush 100
    newarray int
    astore_1
    goto L
.end method
