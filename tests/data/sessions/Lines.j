; The entry that begins last counts; of two, the second; none begins at 0.
.class public Main
.super java/lang/Object
.method public static main([Ljava/lang/String;)V
    .limit stack 8
    .limit locals 8
    nop
    .line 10
    nop
    .line 12
    .line 13
    nop
    nop
    return
.end method
