.class public abstract A
.super java/lang/Thread

.method public abstract run()V
.end method
