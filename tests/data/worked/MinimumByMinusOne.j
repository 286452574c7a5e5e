.class public Main
.super java/lang/Object
.method public static main([Ljava/lang/String;)V
    .limit stack 8
    .limit locals 8
    getstatic java/lang/System/out Ljava/io/PrintStream;
    ldc -2147483648
    iconst_m1
    idiv
    invokevirtual java/io/PrintStream/println(I)V
    getstatic java/lang/System/out Ljava/io/PrintStream;
    ldc -2147483648
    iconst_m1
    irem
    invokevirtual java/io/PrintStream/println(I)V
    return
.end method
