.class public Main
.super java/lang/Object
.method public static main([Ljava/lang/String;)V
    .limit stack 8
    .limit locals 8
    lconst_1
    ldc2_w 2
    dup2_x2
    lstore_1
    lstore_3
    lstore 5
    getstatic java/lang/System/out Ljava/io/PrintStream;
    lload_1
    invokevirtual java/io/PrintStream/println(J)V
    getstatic java/lang/System/out Ljava/io/PrintStream;
    lload_3
    invokevirtual java/io/PrintStream/println(J)V
    getstatic java/lang/System/out Ljava/io/PrintStream;
    lload 5
    invokevirtual java/io/PrintStream/println(J)V
    return
.end method
