.class public Main
.super java/lang/Object

.field f Z

.method public static main([Ljava/lang/String;)V
    .limit stack 8
    .limit locals 8
    new Main
    astore_1
    aload_1
    ldc 6
    putfield Main/f Z
    getstatic java/lang/System/out Ljava/io/PrintStream;
    aload_1
    getfield Main/f Z
    invokevirtual java/io/PrintStream/println(I)V
    return
.end method
