.class public Main
.super java/lang/Object

.field f J
.field static s J

.method public static main([Ljava/lang/String;)V
    .limit stack 8
    .limit locals 8
    getstatic java/lang/System/out Ljava/io/PrintStream;
    new Main
    getfield Main/f J
    getstatic Main/s J
    ladd
    invokevirtual java/io/PrintStream/println(J)V
    return
.end method
