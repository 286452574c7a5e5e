.class public Main
.super java/lang/Object
.method public static main([Ljava/lang/String;)V
    .limit stack 8
    .limit locals 8
    new E
    dup
    invokevirtual java/lang/Thread/start()V
    invokevirtual java/lang/Thread/start()V
    return
.end method
