.class public WaitsForB
.super java/lang/Thread
.method public run()V
    .limit stack 8
    .limit locals 8
    getstatic CycleB/b I
    pop
    return
.end method
