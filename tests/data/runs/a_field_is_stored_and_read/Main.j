.class public Main
.super java/lang/Object

.method public static main([Ljava/lang/String;)V
    .limit stack 8
    .limit locals 8
    new A
    astore_1
    aload_1
    iconst_4
    putfield A/x I
    getstatic java/lang/System/out Ljava/io/PrintStream;
    aload_1
    getfield A/x I
    invokevirtual java/io/PrintStream/println(I)V
    return
.end method
