.class public Main
.super java/lang/Object
.method public static main([Ljava/lang/String;)V
    .limit stack 8
    .limit locals 8
    .catch all from L0 to L1 using H1
L0:
    getstatic Fails/a I
L1:
H1:
    pop
    bipush 16
    newarray int
    astore_1
    getstatic Fails/a I
    pop
    return
.end method
