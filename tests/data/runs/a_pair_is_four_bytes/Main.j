.class public Main
.super java/lang/Object

.method public static main([Ljava/lang/String;)V
    .limit stack 8
    .limit locals 8
    getstatic java/lang/System/out Ljava/io/PrintStream;
    ldc "\u0000\ud83d\ude00"
    invokevirtual java/io/PrintStream/println(Ljava/lang/String;)V
    return
.end method
