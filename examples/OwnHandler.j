.class public Main
.super java/lang/Object
.method static <clinit>()V
    .limit stack 2
    iconst_1
    iconst_0
    idiv
    pop
    return
.end method
.method public static main([Ljava/lang/String;)V
    .limit stack 2
From:
    getstatic java/lang/System/out Ljava/io/PrintStream;
    iconst_1
    invokevirtual java/io/PrintStream/println(I)V
    return
Caught:
    pop
    getstatic java/lang/System/out Ljava/io/PrintStream;
    iconst_5
    invokevirtual java/io/PrintStream/println(I)V
    return
    .catch all from From to Caught using Caught
.end method
