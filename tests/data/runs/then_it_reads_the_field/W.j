.class public W
.super java/lang/Thread

.method public run()V
    .limit stack 8
    .limit locals 8
    getstatic java/lang/System/out Ljava/io/PrintStream;
    getstatic A/x I
    invokevirtual java/io/PrintStream/println(I)V
    return
.end method
