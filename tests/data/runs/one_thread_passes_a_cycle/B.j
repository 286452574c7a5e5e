.class public B
.super java/lang/Object

.field static b I

.method static <clinit>()V
    .limit stack 8
    .limit locals 8
    getstatic A/a I
    iconst_2
    iadd
    putstatic B/b I
    return
.end method
