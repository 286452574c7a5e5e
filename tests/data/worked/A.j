.class public A
.super java/lang/Object
.implements I
.method public m()I
    iconst_1
    ireturn
.end method
