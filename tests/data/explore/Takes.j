.class Takes
.super java/lang/Object
.field static k Ljava/lang/Object;
.field static l Ljava/lang/Object;
.method static main([Ljava/lang/String;)V
.limit stack 1
new java/lang/Object
putstatic Takes/k Ljava/lang/Object;
new java/lang/Object
putstatic Takes/l Ljava/lang/Object;
new TakesToo
invokevirtual java/lang/Thread/start()V
getstatic Takes/k Ljava/lang/Object;
monitorenter
getstatic Takes/l Ljava/lang/Object;
monitorenter
getstatic Takes/l Ljava/lang/Object;
monitorexit
getstatic Takes/k Ljava/lang/Object;
monitorexit
return
.end method
