.class public A
.super java/lang/Object

.field x I

.method <init>()V
    .limit stack 8
    .limit locals 8
    aload_0
    invokespecial java/lang/Object/<init>()V
    aload_0
    iconst_5
    putfield A/x I
    getstatic java/lang/System/out Ljava/io/PrintStream;
    iconst_1
    invokevirtual java/io/PrintStream/println(I)V
    return
.end method
