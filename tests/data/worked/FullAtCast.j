.class public Main
.super java/lang/Object
.method public static main([Ljava/lang/String;)V
    .limit stack 8
    .limit locals 8
    bipush 16
    newarray int
    astore_1
    aload_1
    checkcast Main
    pop
    return
.end method
