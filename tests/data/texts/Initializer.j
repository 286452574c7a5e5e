; A class initializer, which runs once, before the first use of the class.
.class public Initializer
.super java/lang/Object

.field static seen I = 5
.field static table [C

.method static <clinit>()V
    .limit stack 4
    .limit locals 0
    getstatic Initializer/seen I
    iconst_2
    imul
    putstatic Initializer/seen I
    iconst_3
    newarray char
    dup
    iconst_0
    bipush 74
    castore
    dup
    iconst_1
    bipush 86
    castore
    dup
    iconst_2
    bipush 77
    castore
    putstatic Initializer/table [C
    return
.end method

.method public static main([Ljava/lang/String;)V
    .limit stack 3
    .limit locals 2
    iconst_0
    istore_1
Letter:
    getstatic java/lang/System/out Ljava/io/PrintStream;
    getstatic Initializer/table [C
    iload_1
    caload
    invokevirtual java/io/PrintStream/print(C)V
    iinc 1 1
    iload_1
    getstatic Initializer/table [C
    arraylength
    if_icmplt Letter
    getstatic java/lang/System/out Ljava/io/PrintStream;
    invokevirtual java/io/PrintStream/println()V
    getstatic java/lang/System/out Ljava/io/PrintStream;
    getstatic Initializer/seen I
    invokevirtual java/io/PrintStream/println(I)V
    return
.end method
