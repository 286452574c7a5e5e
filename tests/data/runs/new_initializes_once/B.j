.class public B
.super java/lang/Object

.field static x I

.method static <clinit>()V
    .limit stack 8
    .limit locals 8
    getstatic java/lang/System/out Ljava/io/PrintStream;
    iconst_1
    invokevirtual java/io/PrintStream/println(I)V
    return
.end method

.method static f()V
    .limit stack 8
    .limit locals 8
    return
.end method
