.class public Main
.super java/lang/Object

.method public static main([Ljava/lang/String;)V
    .limit stack 8
    .limit locals 8
    ldc "abc"
    iconst_m1
    invokevirtual java/lang/String/charAt(I)C
    pop
    return
.end method
