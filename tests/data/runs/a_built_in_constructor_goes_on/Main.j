.class public Main
.super java/lang/Object

.method public static main([Ljava/lang/String;)V
    .limit stack 8
    .limit locals 8
    new java/lang/Error
    dup
    invokespecial java/lang/Error/<init>()V
    invokespecial java/lang/Throwable/<init>()V
    getstatic java/lang/System/out Ljava/io/PrintStream;
    iconst_5
    invokevirtual java/io/PrintStream/println(I)V
    return
.end method
