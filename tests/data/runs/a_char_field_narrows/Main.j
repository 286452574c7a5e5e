.class public Main
.super java/lang/Object

.field f C

.method public static main([Ljava/lang/String;)V
    .limit stack 8
    .limit locals 8
    new Main
    astore_1
    aload_1
    ldc -1
    putfield Main/f C
    getstatic java/lang/System/out Ljava/io/PrintStream;
    aload_1
    getfield Main/f C
    invokevirtual java/io/PrintStream/println(I)V
    return
.end method
