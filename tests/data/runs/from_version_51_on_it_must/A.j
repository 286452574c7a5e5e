.bytecode 52.0
.class public A
.super java/lang/Object

.field static x I

.method <clinit>()V
    .limit stack 8
    .limit locals 8
    getstatic java/lang/System/out Ljava/io/PrintStream;
    iconst_1
    invokevirtual java/io/PrintStream/println(I)V
    return
.end method
