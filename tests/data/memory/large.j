; 20 arrays of 4,000 longs, which one array refers to: 80,083 cells, which several copiers collect.
.class public Main
.super java/lang/Object
.method public static main([Ljava/lang/String;)V
    .limit stack 4
    .limit locals 3
    bipush 20
    anewarray java/lang/Object
    astore_1
    iconst_0
    istore_2
L:
    aload_1
    iload_2
    sipush 4000
    newarray long
    aastore
    iinc 2 1
    iload_2
    bipush 20
    if_icmplt L
    return
.end method
