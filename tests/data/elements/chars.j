; Arrays of chars.
.class Kind
.super java/lang/Object
.field static a [C
.method static make(I)V
.limit stack 2
.limit locals 1
iload_0
newarray char
putstatic Kind/a [C
getstatic java/lang/System/out Ljava/io/PrintStream;
getstatic Kind/a [C
arraylength
invokevirtual java/io/PrintStream/println(I)V
return
.end method
.method static first(I)V
.limit stack 4
.limit locals 1
getstatic Kind/a [C
iload_0
ldc 65535
castore
return
.end method
.method static seventh(I)V
.limit stack 4
.limit locals 1
getstatic Kind/a [C
iload_0
ldc 32768
castore
return
.end method
.method static eighth(I)V
.limit stack 4
.limit locals 1
getstatic Kind/a [C
iload_0
iconst_m1
castore
return
.end method
.method static last(I)V
.limit stack 4
.limit locals 1
getstatic Kind/a [C
iload_0
ldc 65543
castore
return
.end method
.method static show(I)V
.limit stack 3
.limit locals 1
getstatic java/lang/System/out Ljava/io/PrintStream;
getstatic Kind/a [C
iload_0
caload
invokevirtual java/io/PrintStream/println(I)V
return
.end method
