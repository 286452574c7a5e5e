.class public Main
.super java/lang/Object

.method public static main([Ljava/lang/String;)V
    .limit stack 8
    .limit locals 8
    getstatic java/lang/System/out Ljava/io/PrintStream;
    aconst_null
    invokevirtual java/io/PrintStream/print(Ljava/lang/String;)V
    return
.end method
