; The lines of the real Jasmin's example of that name: new int[2][5][], and two rows for it.
.bytecode 46.0
.source MultiArrays.j
.class public examples/MultiArrays
.super java/lang/Object

.method public <init>()V
    aload_0
    invokenonvirtual java/lang/Object/<init>()V
    return
.end method

.method public static main([Ljava/lang/String;)V
    .limit locals 4
    .limit stack 5
    iconst_2
    iconst_5
    multianewarray [[[I 2
    astore_1
    aload_1
    iconst_1
    aaload
    astore_2
    aload_2
    iconst_1
    bipush 50
    newarray int
    aastore
    aload_2
    iconst_2
    bipush 60
    newarray int
    aastore
    return
.end method
