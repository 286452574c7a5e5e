; The primes below 50, by Eratosthenes' sieve over a boolean array.
.class public Sieve
.super java/lang/Object

.method public static main([Ljava/lang/String;)V
    .limit stack 3
    .limit locals 4
    bipush 50
    newarray boolean
    astore_1
    iconst_2
    istore_2
Number:
    aload_1
    iload_2
    baload
    ifne Composite
    getstatic java/lang/System/out Ljava/io/PrintStream;
    iload_2
    invokevirtual java/io/PrintStream/println(I)V
    iload_2
    iload_2
    iadd
    istore_3
Multiple:
    iload_3
    bipush 50
    if_icmpge Composite
    aload_1
    iload_3
    iconst_1
    bastore
    iload_3
    iload_2
    iadd
    istore_3
    goto Multiple
Composite:
    iinc 2 1
    iload_2
    bipush 50
    if_icmplt Number
    return
.end method
