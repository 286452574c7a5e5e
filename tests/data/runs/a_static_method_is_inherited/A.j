.class public A
.super java/lang/Object

.method static f()I
    .limit stack 8
    .limit locals 8
    iconst_4
    ireturn
.end method
