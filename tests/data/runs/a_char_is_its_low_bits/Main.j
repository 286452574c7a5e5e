.class public Main
.super java/lang/Object

.method public static main([Ljava/lang/String;)V
    .limit stack 8
    .limit locals 8
    getstatic java/lang/System/out Ljava/io/PrintStream;
    ldc 65601
    invokevirtual java/io/PrintStream/println(C)V
    getstatic java/lang/System/out Ljava/io/PrintStream;
    ldc 55296
    invokevirtual java/io/PrintStream/println(C)V
    return
.end method
