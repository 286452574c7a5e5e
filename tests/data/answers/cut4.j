.bytecode 49.0
.source K.j
.class public final K
.super java/lang/Object
.implements java/io/Serializable
.field static final s Ljava/lang/String; = "k ; \u00e9\n"
.field private j J
.method synchronized f(IJ)V
.limit stack 8
.limit locals 8
.throws java/lang/Exception
.var 0 is this LK; from L0 to L1
.catch all from L0 to L1 using H
.line 7
L0: ; of the range
iconst_1
iconst_0
idiv
L1:
pop
return
H:
iconst_0
lookupswitch
-1 : L0
2 : L1
default : H
tableswitch 0
L0
L1
default : H
.end method
.method protected abstract g()V
.end method
