.class W
.super java/lang/Thread
.method public run()V
.limit stack 8
.limit locals 8
getstatic Main/k LK;
invokevirtual K/f()V
return
.end method
