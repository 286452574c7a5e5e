; What a compiler makes of try and finally: the handler of every exception runs the block and throws on.
.class public Finally
.super java/lang/Object

.method static quotient(II)I
    .limit stack 2
    .limit locals 4
    .catch all from Try to Tried using Handler
    .throws java/lang/ArithmeticException
Try:
    iload_0
    iload_1
    idiv
    istore_2
Tried:
    invokestatic Finally/leave()V
    iload_2
    ireturn
Handler:
    astore_3
    invokestatic Finally/leave()V
    aload_3
    athrow
.end method

.method static leave()V
    .limit stack 2
    .limit locals 0
    getstatic java/lang/System/out Ljava/io/PrintStream;
    ldc "leaving"
    invokevirtual java/io/PrintStream/println(Ljava/lang/String;)V
    return
.end method

.method public static main([Ljava/lang/String;)V
    .limit stack 3
    .limit locals 2
    .catch java/lang/ArithmeticException from Try to Tried using Handler
Try:
    getstatic java/lang/System/out Ljava/io/PrintStream;
    bipush 84
    iconst_2
    invokestatic Finally/quotient(II)I
    invokevirtual java/io/PrintStream/println(I)V
    iconst_1
    iconst_0
    invokestatic Finally/quotient(II)I
    pop
Tried:
    return
Handler:
    astore_1
    getstatic java/lang/System/out Ljava/io/PrintStream;
    ldc "caught"
    invokevirtual java/io/PrintStream/println(Ljava/lang/String;)V
    return
.end method
