.class public Waits
.super java/lang/Thread
.method public run()V
    .limit stack 8
    .limit locals 8
    getstatic B/b I
    pop
    return
.end method
