.class public Main
.super java/lang/Object

.method public static main([Ljava/lang/String;)V
    .limit stack 8
    .limit locals 8
    new java/lang/Object
    astore_1
    aload_1
    monitorenter
    aload_1
    monitorenter
    aload_1
    monitorexit
    aload_1
    monitorexit
    aload_1
    monitorexit
    return
.end method
