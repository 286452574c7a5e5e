; Extends Animal; calls the superclass's method by its old name, invokenonvirtual.
.class public Dog
.super Animal

.method public <init>()V
    aload_0
    invokenonvirtual Animal/<init>()V
    return
.end method

.method public legs()I
    iconst_4
    ireturn
.end method

.method public twice()I
    .limit stack 2
    aload_0
    invokenonvirtual Animal/twice()I
    iconst_1
    iadd
    ireturn
.end method

.method public static main([Ljava/lang/String;)V
    .limit stack 3
    .limit locals 2
    new Dog
    dup
    invokespecial Dog/<init>()V
    astore_1
    getstatic java/lang/System/out Ljava/io/PrintStream;
    aload_1
    checkcast Animal
    invokevirtual Animal/twice()I
    invokevirtual java/io/PrintStream/println(I)V
    return
.end method
