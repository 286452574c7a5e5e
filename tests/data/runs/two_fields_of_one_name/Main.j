.class public Main
.super java/lang/Object

.field f B

.method public static main([Ljava/lang/String;)V
    .limit stack 8
    .limit locals 8
    new S
    astore_1
    aload_1
    bipush 1
    putfield Main/f B
    aload_1
    bipush 2
    putfield S/f B
    getstatic java/lang/System/out Ljava/io/PrintStream;
    aload_1
    getfield Main/f B
    invokevirtual java/io/PrintStream/println(I)V
    return
.end method
