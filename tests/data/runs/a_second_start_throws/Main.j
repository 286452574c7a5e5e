.class public Main
.super java/lang/Object

.method public static main([Ljava/lang/String;)V
    .limit stack 8
    .limit locals 8
    new W
    astore_1
    aload_1
    invokespecial java/lang/Thread/<init>()V
    aload_1
    invokevirtual java/lang/Thread/start()V
    aload_1
    invokevirtual java/lang/Thread/start()V
    return
.end method
