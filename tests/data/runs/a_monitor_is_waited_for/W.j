.class public W
.super java/lang/Thread

.method public run()V
    .limit stack 8
    .limit locals 8
    getstatic Main/k Ljava/lang/Object;
    monitorenter
    getstatic java/lang/System/out Ljava/io/PrintStream;
    iconst_1
    invokevirtual java/io/PrintStream/println(I)V
    getstatic Main/k Ljava/lang/Object;
    monitorexit
    return
.end method
