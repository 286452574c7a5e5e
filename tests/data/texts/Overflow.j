; Int arithmetic wraps round, and the minimum by minus one stays the minimum.
.class public Overflow
.super java/lang/Object

.method static print(I)V
    .limit stack 2
    .limit locals 1
    getstatic java/lang/System/out Ljava/io/PrintStream;
    iload_0
    invokevirtual java/io/PrintStream/println(I)V
    return
.end method

.method public static main([Ljava/lang/String;)V
    .limit stack 2
    ldc 2147483647
    iconst_1
    iadd
    invokestatic Overflow/print(I)V
    ldc -2147483648
    iconst_m1
    idiv
    invokestatic Overflow/print(I)V
    ldc -2147483648
    iconst_m1
    irem
    invokestatic Overflow/print(I)V
    ldc -2147483648
    ineg
    invokestatic Overflow/print(I)V
    ldc 65536
    ldc 65537
    imul
    invokestatic Overflow/print(I)V
    bipush -7
    iconst_2
    idiv
    invokestatic Overflow/print(I)V
    bipush -7
    iconst_2
    irem
    invokestatic Overflow/print(I)V
    sipush 200
    i2b
    invokestatic Overflow/print(I)V
    iconst_m1
    i2c
    invokestatic Overflow/print(I)V
    ldc 0x12345678
    i2s
    invokestatic Overflow/print(I)V
    return
.end method
