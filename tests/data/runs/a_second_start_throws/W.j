.class public W
.super java/lang/Thread

.method public run()V
    .limit stack 8
    .limit locals 8
    return
.end method
