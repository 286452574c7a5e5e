; Arrays of booleans.
.class Kind
.super java/lang/Object
.field static a [Z
.method static make(I)V
.limit stack 2
.limit locals 1
iload_0
newarray boolean
putstatic Kind/a [Z
getstatic java/lang/System/out Ljava/io/PrintStream;
getstatic Kind/a [Z
arraylength
invokevirtual java/io/PrintStream/println(I)V
return
.end method
.method static first(I)V
.limit stack 4
.limit locals 1
getstatic Kind/a [Z
iload_0
iconst_3
bastore
return
.end method
.method static seventh(I)V
.limit stack 4
.limit locals 1
getstatic Kind/a [Z
iload_0
iconst_2
bastore
return
.end method
.method static eighth(I)V
.limit stack 4
.limit locals 1
getstatic Kind/a [Z
iload_0
iconst_1
bastore
return
.end method
.method static last(I)V
.limit stack 4
.limit locals 1
getstatic Kind/a [Z
iload_0
iconst_m1
bastore
return
.end method
.method static show(I)V
.limit stack 3
.limit locals 1
getstatic java/lang/System/out Ljava/io/PrintStream;
getstatic Kind/a [Z
iload_0
baload
invokevirtual java/io/PrintStream/println(I)V
return
.end method
