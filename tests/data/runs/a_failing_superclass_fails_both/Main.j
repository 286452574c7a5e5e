.class public Main
.super java/lang/Object

.method public static main([Ljava/lang/String;)V
    .limit stack 8
    .limit locals 8
    .catch java/lang/ExceptionInInitializerError from A to B using H1
    .catch java/lang/NoClassDefFoundError from C to D using H2
    .catch java/lang/NoClassDefFoundError from E to G using H3
A:
    getstatic T/y I
B:
    pop
    return
H1:
    pop
C:
    getstatic T/y I
D:
    pop
    return
H2:
    pop
E:
    getstatic S/x I
G:
    pop
    return
H3:
    pop
    getstatic java/lang/System/out Ljava/io/PrintStream;
    iconst_5
    invokevirtual java/io/PrintStream/println(I)V
    return
.end method
