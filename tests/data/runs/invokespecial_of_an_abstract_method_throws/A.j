.class public abstract A
.super java/lang/Object

.method public abstract m()I
.end method
