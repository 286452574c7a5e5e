.class public Main
.super java/lang/Object
.method public static main([Ljava/lang/String;)V
    .limit stack 8
    .limit locals 8
    getstatic java/lang/System/out Ljava/io/PrintStream;
    lconst_1
    bipush 65
    lshl
    invokevirtual java/io/PrintStream/println(J)V
    getstatic java/lang/System/out Ljava/io/PrintStream;
    lconst_1
    bipush 33
    lshl
    invokevirtual java/io/PrintStream/println(J)V
    getstatic java/lang/System/out Ljava/io/PrintStream;
    iconst_1
    bipush 33
    ishl
    invokevirtual java/io/PrintStream/println(I)V
    return
.end method
