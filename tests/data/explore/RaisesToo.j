.class RaisesToo
.super java/lang/Thread
.method public run()V
.limit stack 2
getstatic Raises/n I
iconst_1
iadd
putstatic Raises/n I
return
.end method
