.class public A
.super java/lang/Object

.field static a I

.method static <clinit>()V
    .limit stack 8
    .limit locals 8
    getstatic B/b I
    iconst_1
    iadd
    putstatic A/a I
    return
.end method
