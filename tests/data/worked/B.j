.class public B
.super A
.method public m()I
    iconst_2
    ireturn
.end method
