.bytecode 45.3
.source Main.java
.class public abstract Main
.super java/lang/Object
.implements java/lang/Runnable
.field public static i I = -7
.field public static l J = -7
.field public static s Ljava/lang/String; = "text"
.field public static z Z
.method public f(J[[Ljava/lang/String;)I
.limit stack 8
.limit locals 9
.catch java/lang/Error from L1 to L3 using L14
.catch all from L0 to L15 using L2
L0:
aconst_null
L1:
newarray char
L2:
saload
L3:
.line 70
monitorenter
ldc -7
ldc2_w 8
ldc "text"
putstatic Main/i I
invokevirtual Main/f(J[[Ljava/lang/String;)I
invokeinterface Main/f(J[[Ljava/lang/String;)I 4
new Main
anewarray [[[I
instanceof [[[I
ireturn
L14:
.line 65535
athrow
L15:
.end method
.method public abstract f(J[[Ljava/lang/String;)I
.end method
