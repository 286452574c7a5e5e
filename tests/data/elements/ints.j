; Arrays of ints.
.class Kind
.super java/lang/Object
.field static a [I
.method static make(I)V
.limit stack 2
.limit locals 1
iload_0
newarray int
putstatic Kind/a [I
getstatic java/lang/System/out Ljava/io/PrintStream;
getstatic Kind/a [I
arraylength
invokevirtual java/io/PrintStream/println(I)V
return
.end method
.method static first(I)V
.limit stack 4
.limit locals 1
getstatic Kind/a [I
iload_0
ldc -2147483648
iastore
return
.end method
.method static seventh(I)V
.limit stack 4
.limit locals 1
getstatic Kind/a [I
iload_0
ldc 2147483647
iastore
return
.end method
.method static eighth(I)V
.limit stack 4
.limit locals 1
getstatic Kind/a [I
iload_0
iconst_m1
iastore
return
.end method
.method static last(I)V
.limit stack 4
.limit locals 1
getstatic Kind/a [I
iload_0
ldc 65536
iastore
return
.end method
.method static show(I)V
.limit stack 3
.limit locals 1
getstatic java/lang/System/out Ljava/io/PrintStream;
getstatic Kind/a [I
iload_0
iaload
invokevirtual java/io/PrintStream/println(I)V
return
.end method
