.class public Main
.super java/lang/Object

.field static b B

.method public static main([Ljava/lang/String;)V
    .limit stack 8
    .limit locals 8
    ldc 456
    putstatic Main/b B
    getstatic java/lang/System/out Ljava/io/PrintStream;
    getstatic Main/b B
    invokevirtual java/io/PrintStream/println(I)V
    return
.end method
