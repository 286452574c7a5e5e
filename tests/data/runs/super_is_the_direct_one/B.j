.class public B
.super A

.method public m()I
    .limit stack 8
    .limit locals 8
    iconst_2
    ireturn
.end method
