.class Raises
.super java/lang/Object
.field static n I
.method static main([Ljava/lang/String;)V
.limit stack 2
new RaisesToo
invokevirtual java/lang/Thread/start()V
getstatic Raises/n I
iconst_1
iadd
putstatic Raises/n I
getstatic java/lang/System/out Ljava/io/PrintStream;
getstatic Raises/n I
invokevirtual java/io/PrintStream/println(I)V
return
.end method
