.class public A
.super java/lang/Object

.field static x I

.method static <clinit>()V
    .limit stack 8
    .limit locals 8
    iconst_1
    iconst_0
    idiv
    pop
    return
.end method
