.class public B
.super A

.method <init>()V
    .limit stack 8
    .limit locals 8
    aload_0
    invokespecial A/<init>()V
    getstatic java/lang/System/out Ljava/io/PrintStream;
    iconst_2
    invokevirtual java/io/PrintStream/println(I)V
    return
.end method
