.class public Main
.super java/lang/Object
.method public static main([Ljava/lang/String;)V
    .limit stack 8
    .limit locals 8
    nop
    iconst_1
    tableswitch 0
        A
        B
        default : C
A:
    getstatic java/lang/System/out Ljava/io/PrintStream;
    bipush 10
    invokevirtual java/io/PrintStream/println(I)V
    return
B:
    getstatic java/lang/System/out Ljava/io/PrintStream;
    bipush 20
    invokevirtual java/io/PrintStream/println(I)V
    return
C:
    getstatic java/lang/System/out Ljava/io/PrintStream;
    bipush 30
    invokevirtual java/io/PrintStream/println(I)V
    return
.end method
