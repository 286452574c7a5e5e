.class public Main
.super java/lang/Object
.method public static main([Ljava/lang/String;)V
    .limit stack 8
    .limit locals 8
    iconst_2
    iconst_3
    multianewarray [[I 2
    astore_1
    getstatic java/lang/System/out Ljava/io/PrintStream;
    aload_1
    iconst_1
    aaload
    arraylength
    invokevirtual java/io/PrintStream/println(I)V
    return
.end method
