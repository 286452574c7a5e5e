; An array of ten squares and its sum.
.class public ArraySum
.super java/lang/Object

.method static squares(I)[I
    .limit stack 4
    .limit locals 3
    iload_0
    newarray int
    astore_1
    iconst_0
    istore_2
Fill:
    iload_2
    iload_0
    if_icmpge Filled
    aload_1
    iload_2
    iload_2
    iload_2
    imul
    iastore
    iinc 2 1
    goto Fill
Filled:
    aload_1
    areturn
.end method

.method static sum([I)I
    .limit stack 3
    .limit locals 3
    iconst_0
    istore_1
    iconst_0
    istore_2
Add:
    iload_2
    aload_0
    arraylength
    if_icmpge Added
    iload_1
    aload_0
    iload_2
    iaload
    iadd
    istore_1
    iinc 2 1
    goto Add
Added:
    iload_1
    ireturn
.end method

.method public static main([Ljava/lang/String;)V
    .limit stack 2
    getstatic java/lang/System/out Ljava/io/PrintStream;
    bipush 10
    invokestatic ArraySum/squares(I)[I
    invokestatic ArraySum/sum([I)I
    invokevirtual java/io/PrintStream/println(I)V
    return
.end method
