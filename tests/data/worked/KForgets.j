.class public K
.super java/lang/Object
.method public synchronized f()V
    .limit stack 8
    .limit locals 8
    aconst_null
    astore_0
    return
.end method
