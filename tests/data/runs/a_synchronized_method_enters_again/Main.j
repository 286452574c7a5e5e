.class public Main
.super java/lang/Object

.method public static main([Ljava/lang/String;)V
    .limit stack 8
    .limit locals 8
    new Main
    astore_1
    aload_1
    monitorenter
    aload_1
    invokevirtual Main/f()V
    aload_1
    monitorexit
    getstatic java/lang/System/out Ljava/io/PrintStream;
    iconst_5
    invokevirtual java/io/PrintStream/println(I)V
    return
.end method

.method synchronized f()V
    .limit stack 8
    .limit locals 8
    return
.end method
