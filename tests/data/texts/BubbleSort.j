; Sorts eight shorts in place.
.class public BubbleSort
.super java/lang/Object

.method static sort([S)V
    .limit stack 5
    .limit locals 4
    aload_0
    arraylength
    istore_1
Round:
    iinc 1 -1
    iload_1
    ifle Sorted
    iconst_0
    istore_2
Pair:
    iload_2
    iload_1
    if_icmpge Round
    aload_0
    iload_2
    saload
    aload_0
    iload_2
    iconst_1
    iadd
    saload
    if_icmple Right
    aload_0
    iload_2
    saload
    istore_3
    aload_0
    iload_2
    aload_0
    iload_2
    iconst_1
    iadd
    saload
    sastore
    aload_0
    iload_2
    iconst_1
    iadd
    iload_3
    sastore
Right:
    iinc 2 1
    goto Pair
Sorted:
    return
.end method

.method public static main([Ljava/lang/String;)V
    .limit stack 4
    .limit locals 3
    bipush 8
    newarray short
    astore_1
    iconst_0
    istore_2
Fill:
    aload_1
    iload_2
    iload_2
    bipush 37
    imul
    bipush 11
    irem
    iconst_5
    isub
    sastore
    iinc 2 1
    iload_2
    bipush 8
    if_icmplt Fill
    aload_1
    invokestatic BubbleSort/sort([S)V
    iconst_0
    istore_2
Print:
    getstatic java/lang/System/out Ljava/io/PrintStream;
    aload_1
    iload_2
    saload
    invokevirtual java/io/PrintStream/println(I)V
    iinc 2 1
    iload_2
    bipush 8
    if_icmplt Print
    return
.end method
