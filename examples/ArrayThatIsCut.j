; An array of three ints, to which nothing refers in the end.
.class public Main
.super java/lang/Object
.method public static main([Ljava/lang/String;)V
    .limit stack 3
    .limit locals 3
    iconst_0
    newarray int
    astore_1
    iconst_3
    newarray int
    astore_2
    aload_2
    iconst_1
    bipush 7
    iastore
    aconst_null
    astore_2
    return
.end method
