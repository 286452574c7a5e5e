; The number of bits set in an int.
.class public Bits
.super java/lang/Object

.method static population(I)I
    .limit stack 3
    .limit locals 2
    iconst_0
    istore_1
Bit:
    iload_0
    ifeq Counted
    iload_0
    iload_0
    iconst_1
    isub
    iand
    istore_0
    iinc 1 1
    goto Bit
Counted:
    iload_1
    ireturn
.end method

.method public static main([Ljava/lang/String;)V
    .limit stack 3
    getstatic java/lang/System/out Ljava/io/PrintStream;
    ldc 0x0f0f
    sipush 255
    ixor
    invokestatic Bits/population(I)I
    invokevirtual java/io/PrintStream/println(I)V
    getstatic java/lang/System/out Ljava/io/PrintStream;
    iconst_m1
    invokestatic Bits/population(I)I
    invokevirtual java/io/PrintStream/println(I)V
    getstatic java/lang/System/out Ljava/io/PrintStream;
    bipush 12
    bipush 10
    ior
    invokevirtual java/io/PrintStream/println(I)V
    return
.end method
