.class public A
.super java/lang/Object
.implements I

.method public m()I
    .limit stack 8
    .limit locals 8
    iconst_1
    ireturn
.end method
