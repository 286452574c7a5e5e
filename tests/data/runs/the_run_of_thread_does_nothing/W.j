.class public W
.super java/lang/Thread

.method public run()V
    .limit stack 8
    .limit locals 8
    aload_0
    invokespecial java/lang/Thread/run()V
    return
.end method
