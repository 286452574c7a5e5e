.class public Main
.super java/lang/Object

.field f J

.method public static main([Ljava/lang/String;)V
    .limit stack 8
    .limit locals 8
    new Main
    astore_1
    aload_1
    ldc2_w 12345678901
    putfield Main/f J
    getstatic java/lang/System/out Ljava/io/PrintStream;
    aload_1
    getfield Main/f J
    invokevirtual java/io/PrintStream/println(J)V
    return
.end method
