.class public Main
.super java/lang/Object

.method public static main([Ljava/lang/String;)V
    .limit stack 8
    .limit locals 8
    getstatic java/lang/System/out Ljava/io/PrintStream;
    invokestatic Main/f()Ljava/lang/String;
    invokevirtual java/io/PrintStream/println(Ljava/lang/String;)V
    return
.end method

.method static f()Ljava/lang/String;
    .limit stack 8
    .limit locals 8
    ldc "abc"
    areturn
.end method
