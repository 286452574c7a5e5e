; Arrays of longs.
.class Kind
.super java/lang/Object
.field static a [J
.method static make(I)V
.limit stack 2
.limit locals 1
iload_0
newarray long
putstatic Kind/a [J
getstatic java/lang/System/out Ljava/io/PrintStream;
getstatic Kind/a [J
arraylength
invokevirtual java/io/PrintStream/println(I)V
return
.end method
.method static first(I)V
.limit stack 4
.limit locals 1
getstatic Kind/a [J
iload_0
ldc2_w -9223372036854775808
lastore
return
.end method
.method static seventh(I)V
.limit stack 4
.limit locals 1
getstatic Kind/a [J
iload_0
ldc2_w 9223372036854775807
lastore
return
.end method
.method static eighth(I)V
.limit stack 4
.limit locals 1
getstatic Kind/a [J
iload_0
ldc2_w -1
lastore
return
.end method
.method static last(I)V
.limit stack 4
.limit locals 1
getstatic Kind/a [J
iload_0
ldc2_w 4294967296
lastore
return
.end method
.method static show(I)V
.limit stack 3
.limit locals 1
getstatic java/lang/System/out Ljava/io/PrintStream;
getstatic Kind/a [J
iload_0
laload
invokevirtual java/io/PrintStream/println(J)V
return
.end method
