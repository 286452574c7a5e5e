.class K
.super java/lang/Object
.method synchronized f()V
.limit stack 8
.limit locals 8
iconst_1
iconst_0
idiv
pop
return
.end method
