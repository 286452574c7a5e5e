; Two threads begin with the two ends of a cycle of initializers.
.class public Main
.super java/lang/Object
.method public static main([Ljava/lang/String;)V
    .limit stack 8
    .limit locals 8
    new Waits
    invokevirtual java/lang/Thread/start()V
    getstatic A/a I
    pop
    return
.end method
