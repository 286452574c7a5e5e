.class public Main
.super java/lang/Object

.field static k Ljava/lang/Object;

.method public static main([Ljava/lang/String;)V
    .limit stack 8
    .limit locals 8
    new java/lang/Object
    putstatic Main/k Ljava/lang/Object;
    getstatic Main/k Ljava/lang/Object;
    monitorenter
    new W
    dup
    invokespecial java/lang/Thread/<init>()V
    invokevirtual java/lang/Thread/start()V
    getstatic Main/k Ljava/lang/Object;
    monitorexit
    return
.end method
