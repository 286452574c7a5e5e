; Starts two threads that call a synchronized method of one object, which throws.
.class public Main
.super java/lang/Object
.field static k LK;
.method public static main([Ljava/lang/String;)V
    .limit stack 8
    .limit locals 8
    new K
    putstatic Main/k LK;
    new W
    invokevirtual java/lang/Thread/start()V
    new W
    invokevirtual java/lang/Thread/start()V
    return
.end method
