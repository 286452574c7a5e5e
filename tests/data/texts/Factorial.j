; The factorials of 0 to 12 by recursion.
.class public Factorial
.super java/lang/Object

.method public static factorial(I)I
    .limit stack 3
    .limit locals 1
    iload_0
    ifgt Further
    iconst_1
    ireturn
Further:
    iload_0
    iload_0
    iconst_1
    isub
    invokestatic Factorial/factorial(I)I
    imul
    ireturn
.end method

.method public static main([Ljava/lang/String;)V
    .limit stack 2
    .limit locals 2
    iconst_0
    istore_1
Next:
    getstatic java/lang/System/out Ljava/io/PrintStream;
    iload_1
    invokestatic Factorial/factorial(I)I
    invokevirtual java/io/PrintStream/println(I)V
    iinc 1 1
    iload_1
    bipush 13
    if_icmplt Next
    return
.end method
