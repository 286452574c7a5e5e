.class public Main
.super java/lang/Object
.method public static main([Ljava/lang/String;)V
    .limit stack 8
    .limit locals 8
    new N
    astore_1
    new N
    astore_2
    aload_1
    aload_2
    putfield N/n LN;
    aload_2
    aload_1
    putfield N/n LN;
    aconst_null
    astore_1
    aconst_null
    astore_2
    bipush 20
    newarray int
    astore_1
    getstatic java/lang/System/out Ljava/io/PrintStream;
    aload_1
    arraylength
    invokevirtual java/io/PrintStream/println(I)V
    return
.end method
