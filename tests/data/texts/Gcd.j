; The greatest common divisor, after Euclid.
.class public Gcd
.super java/lang/Object

.method public static gcd(II)I
    .limit stack 2
    .limit locals 3
While:
    iload_1
    ifeq Done
    iload_0
    iload_1
    irem
    istore_2
    iload_1
    istore_0
    iload_2
    istore_1
    goto While
Done:
    iload_0
    ireturn
.end method

.method public static main([Ljava/lang/String;)V
    .limit stack 3
    getstatic java/lang/System/out Ljava/io/PrintStream;
    ldc 1071
    ldc 462
    invokestatic Gcd/gcd(II)I
    invokevirtual java/io/PrintStream/println(I)V
    return
.end method
