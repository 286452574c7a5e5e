; A class to extend: which method runs is chosen by the object, not by the type that names it.
.class public abstract Animal
.super java/lang/Object

.method public <init>()V
    aload_0
    invokespecial java/lang/Object/<init>()V
    return
.end method

.method public abstract legs()I
.end method

.method public twice()I
    .limit stack 2
    aload_0
    invokevirtual Animal/legs()I
    iconst_2
    imul
    ireturn
.end method
