.class public ByZero
.super java/lang/Object
.method static divide(II)I
.limit stack 2
.limit locals 2
.line 3
iload_0
iload_1
idiv
ireturn
.end method
.method public static main([Ljava/lang/String;)V
.limit stack 2
.limit locals 1
.line 6
bipush 7
iconst_0
invokestatic ByZero/divide(II)I
pop
return
.end method
