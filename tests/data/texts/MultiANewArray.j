; The lines of the real Jasmin's example of that name: new String[2][5].
.bytecode 46.0
.source MultiANewArray.j
.class public examples/MultiANewArray
.super java/lang/Object

.method public <init>()V
    aload_0
    invokenonvirtual java/lang/Object/<init>()V
    return
.end method

.method public static main([Ljava/lang/String;)V
    .limit locals 4
    .limit stack 2
    iconst_2
    iconst_5
    multianewarray [[Ljava/lang/String; 2
    astore_1
    return
.end method
