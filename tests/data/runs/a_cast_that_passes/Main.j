.class public Main
.super java/lang/Object

.method public static main([Ljava/lang/String;)V
    .limit stack 8
    .limit locals 8
    ldc "abc"
    astore_1
    getstatic java/lang/System/out Ljava/io/PrintStream;
    aload_1
    checkcast java/lang/String
    checkcast java/io/Serializable
    checkcast java/lang/Object
    invokevirtual java/io/PrintStream/println(Ljava/lang/String;)V
    return
.end method
