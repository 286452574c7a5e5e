.class public B
.super A

.method public n()I
    .limit stack 8
    .limit locals 8
    aload_0
    invokespecial A/m()I
    ireturn
.end method
