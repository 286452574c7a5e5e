.class TakesToo
.super java/lang/Thread
.method public run()V
.limit stack 1
getstatic Takes/l Ljava/lang/Object;
monitorenter
getstatic Takes/k Ljava/lang/Object;
monitorenter
getstatic Takes/k Ljava/lang/Object;
monitorexit
getstatic Takes/l Ljava/lang/Object;
monitorexit
return
.end method
