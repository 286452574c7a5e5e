; A thread that prints, and a main that starts two of them.
.class public Worker
.super java/lang/Thread

.field static volatile total J
.field transient number I

.method public <init>(I)V
    .limit stack 2
    .limit locals 2
    aload_0
    invokespecial java/lang/Thread/<init>()V
    aload_0
    iload_1
    putfield Worker/number I
    return
.end method

.method public run()V
    .limit stack 3
    getstatic java/lang/System/out Ljava/io/PrintStream;
    aload_0
    getfield Worker/number I
    iconst_0
    imul
    invokevirtual java/io/PrintStream/println(I)V
    return
.end method

.method public static main([Ljava/lang/String;)V
    .limit stack 3
    new Worker
    dup
    iconst_1
    invokespecial Worker/<init>(I)V
    invokevirtual java/lang/Thread/start()V
    new Worker
    dup
    iconst_2
    invokespecial Worker/<init>(I)V
    invokevirtual java/lang/Thread/start()V
    return
.end method
