.class public Main
.super java/lang/Object
.method public static main([Ljava/lang/String;)V
    .limit stack 8
    .limit locals 8
    invokestatic Main/f()V
    return
.end method
.method static f()V
    invokestatic Main/f()V
    return
.end method
