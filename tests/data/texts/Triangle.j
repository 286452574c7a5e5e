; Pascal's triangle: an array of arrays, each as long as its row.
.class public Triangle
.super java/lang/Object

.method public static main([Ljava/lang/String;)V
    .limit stack 6
    .limit locals 5
    bipush 6
    anewarray [I
    astore_1
    iconst_0
    istore_2
Row:
    iload_2
    iconst_1
    iadd
    newarray int
    astore_3
    aload_1
    iload_2
    aload_3
    aastore
    iconst_0
    istore 4
Column:
    aload_3
    iload 4
    iload 4
    ifeq Edge
    iload 4
    iload_2
    if_icmpeq Edge
    aload_1
    iload_2
    iconst_1
    isub
    aaload
    dup
    iload 4
    iconst_1
    isub
    iaload
    swap
    iload 4
    iaload
    iadd
    goto Put
Edge:
    iconst_1
Put:
    iastore
    iinc 4 1
    iload 4
    iload_2
    if_icmple Column
    getstatic java/lang/System/out Ljava/io/PrintStream;
    aload_3
    iload_2
    iconst_2
    idiv
    iaload
    invokevirtual java/io/PrintStream/println(I)V
    iinc 2 1
    iload_2
    bipush 6
    if_icmplt Row
    return
.end method
