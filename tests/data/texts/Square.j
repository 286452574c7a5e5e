; A class that implements the interface Shape, and a main that calls it by the interface.
.class public Square
.super java/lang/Object
.implements Shape
.implements java/lang/Cloneable

.field protected final side I

.method public <init>(I)V
    .limit stack 2
    .limit locals 2
    aload_0
    invokespecial java/lang/Object/<init>()V
    aload_0
    iload_1
    putfield Square/side I
    return
.end method

.method public area()I
    .limit stack 2
    aload_0
    getfield Square/side I
    dup
    imul
    ireturn
.end method

.method public scaled(I)LShape;
    .limit stack 4
    .limit locals 2
    new Square
    dup
    aload_0
    getfield Square/side I
    iload_1
    imul
    invokespecial Square/<init>(I)V
    areturn
.end method

.method public static main([Ljava/lang/String;)V
    .limit stack 4
    .limit locals 2
    new Square
    dup
    iconst_3
    invokespecial Square/<init>(I)V
    astore_1
    getstatic java/lang/System/out Ljava/io/PrintStream;
    aload_1
    invokeinterface Shape/area()I 1
    invokevirtual java/io/PrintStream/println(I)V
    getstatic java/lang/System/out Ljava/io/PrintStream;
    aload_1
    iconst_2
    invokeinterface Shape/scaled(I)LShape; 2
    invokeinterface Shape/area()I 1
    invokevirtual java/io/PrintStream/println(I)V
    getstatic java/lang/System/out Ljava/io/PrintStream;
    aload_1
    instanceof java/lang/Cloneable
    invokevirtual java/io/PrintStream/println(I)V
    return
.end method
