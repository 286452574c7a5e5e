.class public A
.super java/lang/Object
.implements I

.method static <clinit>()V
    .limit stack 8
    .limit locals 8
    getstatic java/lang/System/out Ljava/io/PrintStream;
    iconst_4
    invokevirtual java/io/PrintStream/println(I)V
    return
.end method
