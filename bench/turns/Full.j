.class public Main
.super java/lang/Object
.method public static main([Ljava/lang/String;)V
.limit stack 2
.limit locals 2
ldc 120000
newarray int
astore_0
iconst_0
istore_1
Again:
iinc 1 1
goto Again
.end method
