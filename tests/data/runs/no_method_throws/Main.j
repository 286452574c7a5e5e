.class public Main
.super java/lang/Object

.method public static main([Ljava/lang/String;)V
    .limit stack 8
    .limit locals 8
    new E
    invokeinterface I/m()I 1
    return
.end method
