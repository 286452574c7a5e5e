.class public Steps
.super java/lang/Thread
.method public run()V
    .limit stack 8
    .limit locals 8
    nop
    nop
    nop
    return
.end method
