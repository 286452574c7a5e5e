; An exception class of one's own, thrown, passed through a method that does not catch it, and caught.
.class public Throwing
.super java/lang/Exception

.field code S

.method public <init>(S)V
    .limit stack 2
    .limit locals 2
    aload_0
    invokespecial java/lang/Exception/<init>()V
    aload_0
    iload_1
    putfield Throwing/code S
    return
.end method

.method static fail(I)V
    .limit stack 3
    .limit locals 1
    .throws Throwing
    new Throwing
    dup
    iload_0
    i2s
    invokespecial Throwing/<init>(S)V
    athrow
.end method

.method static through(I)V
    .limit stack 1
    .throws Throwing
    iload_0
    invokestatic Throwing/fail(I)V
    return
.end method

.method public static main([Ljava/lang/String;)V
    .limit stack 2
    .limit locals 2
    .catch Throwing from Try to Tried using Handler
Try:
    ldc 99999
    invokestatic Throwing/through(I)V
Tried:
    return
Handler:
    astore_1
    getstatic java/lang/System/out Ljava/io/PrintStream;
    aload_1
    getfield Throwing/code S
    invokevirtual java/io/PrintStream/println(I)V
    return
.end method
