.class public Main
.super java/lang/Object

.field f B

.method public static main([Ljava/lang/String;)V
    .limit stack 8
    .limit locals 8
    new Main
    astore_1
    aload_1
    ldc 456
    putfield Main/f B
    getstatic java/lang/System/out Ljava/io/PrintStream;
    aload_1
    getfield Main/f B
    invokevirtual java/io/PrintStream/println(I)V
    return
.end method
