; A main that prints 5 and a line feed, in three stages of initialization and four instructions.
.class A
.super java/lang/Object
.method static main([Ljava/lang/String;)V
.limit stack 2
getstatic java/lang/System/out Ljava/io/PrintStream;
iconst_5
invokevirtual java/io/PrintStream/println(I)V
return
.end method
