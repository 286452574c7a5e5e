; Two rows of an exception table hold the division: the first that fits is taken.
.class public Catch
.super java/lang/Object

.method public static main([Ljava/lang/String;)V
    .limit stack 3
    .limit locals 1
    .catch java/lang/ArithmeticException from Begin to Divided using Arithmetic
    .catch all from Begin to End using Any
Begin:
    iconst_1
    iconst_0
    idiv
Divided:
    pop
End:
    return
Arithmetic:
    pop
    getstatic java/lang/System/out Ljava/io/PrintStream;
    iconst_1
    invokevirtual java/io/PrintStream/println(I)V
    return
Any:
    pop
    getstatic java/lang/System/out Ljava/io/PrintStream;
    iconst_2
    invokevirtual java/io/PrintStream/println(I)V
    return
.end method
