.class public Main
.super java/lang/Object
.method public static main([Ljava/lang/String;)V
    .limit stack 8
    .limit locals 8
    .catch java/lang/ExceptionInInitializerError from L0 to L1 using H1
    .catch java/lang/NoClassDefFoundError from L2 to L3 using H2
L0:
    getstatic Fails/a I
L1:
    pop
    return
H1:
    pop
L2:
    getstatic Fails/a I
L3:
    pop
    return
H2:
    pop
    getstatic java/lang/System/out Ljava/io/PrintStream;
    iconst_5
    invokevirtual java/io/PrintStream/println(I)V
    return
.end method
