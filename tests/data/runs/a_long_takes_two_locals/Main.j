.class public Main
.super java/lang/Object

.method public static main([Ljava/lang/String;)V
    .limit stack 8
    .limit locals 8
    getstatic java/lang/System/out Ljava/io/PrintStream;
    ldc2_w 50
    iconst_3
    invokestatic Main/f(JI)I
    invokevirtual java/io/PrintStream/println(I)V
    return
.end method

.method static f(JI)I
    .limit stack 8
    .limit locals 8
    lload_0
    l2i
    iload_2
    isub
    ireturn
.end method
