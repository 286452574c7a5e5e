.class public Main
.super java/lang/Object
.method public static main([Ljava/lang/String;)V
.limit stack 4
.limit locals 4
; here
return
.end method
