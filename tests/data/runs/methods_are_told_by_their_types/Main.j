.class public Main
.super java/lang/Object

.method public static main([Ljava/lang/String;)V
    .limit stack 8
    .limit locals 8
    getstatic java/lang/System/out Ljava/io/PrintStream;
    lconst_1
    invokestatic Main/f(J)I
    invokevirtual java/io/PrintStream/println(I)V
    getstatic java/lang/System/out Ljava/io/PrintStream;
    iconst_1
    invokestatic Main/f(I)I
    invokevirtual java/io/PrintStream/println(I)V
    return
.end method

.method static f(I)I
    .limit stack 8
    .limit locals 8
    iconst_1
    ireturn
.end method

.method static f(J)I
    .limit stack 8
    .limit locals 8
    iconst_2
    ireturn
.end method
