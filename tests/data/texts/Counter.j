; An object with a field, a constructor and two methods.
.class public Counter
.super java/lang/Object

.field private count I
.field private step J

.method public <init>(I)V
    .limit stack 3
    .limit locals 2
    aload_0
    invokespecial java/lang/Object/<init>()V
    aload_0
    iload_1
    putfield Counter/count I
    aload_0
    ldc2_w 3
    putfield Counter/step J
    return
.end method

.method public next()I
    .limit stack 5
    .limit locals 1
    aload_0
    dup
    getfield Counter/count I
    i2l
    aload_0
    getfield Counter/step J
    ladd
    l2i
    dup_x1
    putfield Counter/count I
    ireturn
.end method

.method public static main([Ljava/lang/String;)V
    .limit stack 3
    .limit locals 2
    new Counter
    dup
    bipush 39
    invokespecial Counter/<init>(I)V
    astore_1
    getstatic java/lang/System/out Ljava/io/PrintStream;
    aload_1
    invokevirtual Counter/next()I
    invokevirtual java/io/PrintStream/println(I)V
    getstatic java/lang/System/out Ljava/io/PrintStream;
    aload_1
    invokevirtual Counter/next()I
    invokevirtual java/io/PrintStream/println(I)V
    return
.end method
