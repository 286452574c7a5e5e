; A monitor entered twice and exited twice, and a synchronized method.
.class public Monitor
.super java/lang/Object

.method public <init>()V
    aload_0
    invokespecial java/lang/Object/<init>()V
    return
.end method

.method public synchronized answer()I
    bipush 42
    ireturn
.end method

.method public static main([Ljava/lang/String;)V
    .limit stack 2
    .limit locals 2
    new Monitor
    dup
    invokespecial Monitor/<init>()V
    astore_1
    aload_1
    monitorenter
    aload_1
    monitorenter
    getstatic java/lang/System/out Ljava/io/PrintStream;
    aload_1
    invokevirtual Monitor/answer()I
    invokevirtual java/io/PrintStream/println(I)V
    aload_1
    monitorexit
    aload_1
    monitorexit
    return
.end method
