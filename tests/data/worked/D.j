.class public D
.super B
.method public up()I
    .limit stack 1
    .limit locals 1
    aload_0
    invokespecial A/m()I
    ireturn
.end method
