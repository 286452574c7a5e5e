; Arrays of references.
.class Kind
.super java/lang/Object
.field static a [[I
.method static make(I)V
.limit stack 2
.limit locals 1
iload_0
anewarray [I
putstatic Kind/a [[I
getstatic java/lang/System/out Ljava/io/PrintStream;
getstatic Kind/a [[I
arraylength
invokevirtual java/io/PrintStream/println(I)V
return
.end method
.method static first(I)V
.limit stack 4
.limit locals 1
getstatic Kind/a [[I
iload_0
iconst_1
newarray int
aastore
return
.end method
.method static seventh(I)V
.limit stack 4
.limit locals 1
getstatic Kind/a [[I
iload_0
iconst_2
newarray int
aastore
return
.end method
.method static eighth(I)V
.limit stack 4
.limit locals 1
getstatic Kind/a [[I
iload_0
iconst_3
newarray int
aastore
return
.end method
.method static last(I)V
.limit stack 4
.limit locals 1
getstatic Kind/a [[I
iload_0
iconst_4
newarray int
aastore
return
.end method
.method static show(I)V
.limit stack 3
.limit locals 1
getstatic java/lang/System/out Ljava/io/PrintStream;
getstatic Kind/a [[I
iload_0
aaload
invokestatic Kind/length([I)I
invokevirtual java/io/PrintStream/println(I)V
return
.end method
.method static length([I)I
.limit stack 1
.limit locals 1
aload_0
ifnull Null
aload_0
arraylength
ireturn
Null:
iconst_m1
ireturn
.end method
