.class public CycleB
.super java/lang/Object
.field static b I
.method static <clinit>()V
    .limit stack 8
    .limit locals 8
    getstatic CycleA/a I
    iconst_2
    iadd
    putstatic CycleB/b I
    return
.end method
