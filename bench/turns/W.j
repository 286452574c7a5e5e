.class public W
.super java/lang/Thread
.method public run()V
.limit stack 1
.limit locals 2
iconst_0
istore_1
Again:
iinc 1 1
goto Again
.end method
