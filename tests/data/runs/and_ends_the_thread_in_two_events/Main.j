.class public Main
.super java/lang/Object

.method public static main([Ljava/lang/String;)V
    .limit stack 8
    .limit locals 8
    new W
    dup
    invokespecial java/lang/Thread/<init>()V
    invokevirtual java/lang/Thread/start()V
    return
.end method
