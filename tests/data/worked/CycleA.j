.class public CycleA
.super java/lang/Object
.field static a I
.method static <clinit>()V
    .limit stack 8
    .limit locals 8
    getstatic CycleB/b I
    iconst_1
    iadd
    putstatic CycleA/a I
    return
.end method
