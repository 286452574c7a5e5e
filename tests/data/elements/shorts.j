; Arrays of shorts.
.class Kind
.super java/lang/Object
.field static a [S
.method static make(I)V
.limit stack 2
.limit locals 1
iload_0
newarray short
putstatic Kind/a [S
getstatic java/lang/System/out Ljava/io/PrintStream;
getstatic Kind/a [S
arraylength
invokevirtual java/io/PrintStream/println(I)V
return
.end method
.method static first(I)V
.limit stack 4
.limit locals 1
getstatic Kind/a [S
iload_0
sipush -32768
sastore
return
.end method
.method static seventh(I)V
.limit stack 4
.limit locals 1
getstatic Kind/a [S
iload_0
sipush 32767
sastore
return
.end method
.method static eighth(I)V
.limit stack 4
.limit locals 1
getstatic Kind/a [S
iload_0
ldc 32769
sastore
return
.end method
.method static last(I)V
.limit stack 4
.limit locals 1
getstatic Kind/a [S
iload_0
ldc 65537
sastore
return
.end method
.method static show(I)V
.limit stack 3
.limit locals 1
getstatic java/lang/System/out Ljava/io/PrintStream;
getstatic Kind/a [S
iload_0
saload
invokevirtual java/io/PrintStream/println(I)V
return
.end method
