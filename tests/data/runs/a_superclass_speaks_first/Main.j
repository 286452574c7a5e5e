.class public Main
.super java/lang/Object

.method public static main([Ljava/lang/String;)V
    .limit stack 8
    .limit locals 8
    new T
    getstatic S/x I
    new T
    return
.end method
