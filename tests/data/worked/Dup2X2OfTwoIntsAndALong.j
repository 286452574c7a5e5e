.class public Main
.super java/lang/Object
.method public static main([Ljava/lang/String;)V
    .limit stack 8
    .limit locals 8
    iconst_1
    iconst_2
    ldc2_w 3
    dup2_x2
    lstore_1
    istore_3
    istore 4
    lstore 5
    getstatic java/lang/System/out Ljava/io/PrintStream;
    lload_1
    invokevirtual java/io/PrintStream/println(J)V
    getstatic java/lang/System/out Ljava/io/PrintStream;
    iload_3
    invokevirtual java/io/PrintStream/println(I)V
    getstatic java/lang/System/out Ljava/io/PrintStream;
    iload 4
    invokevirtual java/io/PrintStream/println(I)V
    getstatic java/lang/System/out Ljava/io/PrintStream;
    lload 5
    invokevirtual java/io/PrintStream/println(J)V
    return
.end method
