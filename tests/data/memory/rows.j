.class public Main
.super java/lang/Object
.method public static main([Ljava/lang/String;)V
    .limit stack 8
    .limit locals 8
    iconst_0
    istore_1
L:
    iload_1
    bipush 30
    if_icmpge End
    iconst_3
    bipush 20
    multianewarray [[I 2
    astore_2
    getstatic java/lang/System/out Ljava/io/PrintStream;
    iload_1
    invokevirtual java/io/PrintStream/println(I)V
    iinc 1 1
    goto L
End:
    return
.end method
