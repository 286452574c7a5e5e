.class public Main
.super java/lang/Object

.method public static main([Ljava/lang/String;)V
    .limit stack 8
    .limit locals 8
    aconst_null
    invokevirtual java/lang/String/length()I
    pop
    return
.end method
