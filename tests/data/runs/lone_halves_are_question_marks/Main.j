.class public Main
.super java/lang/Object

.method public static main([Ljava/lang/String;)V
    .limit stack 8
    .limit locals 8
    getstatic java/lang/System/out Ljava/io/PrintStream;
    ldc "\ud83d\ud83d\ude00\ude00\u00e9\u20ac"
    invokevirtual java/io/PrintStream/println(Ljava/lang/String;)V
    return
.end method
