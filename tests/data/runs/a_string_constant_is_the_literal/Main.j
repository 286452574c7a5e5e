.class public Main
.super java/lang/Object

.field static c Ljava/lang/String; = "abc"

.method public static main([Ljava/lang/String;)V
    .limit stack 8
    .limit locals 8
    getstatic Main/c Ljava/lang/String;
    ldc "abc"
    if_acmpeq Same
    getstatic java/lang/System/out Ljava/io/PrintStream;
    iconst_0
    invokevirtual java/io/PrintStream/println(I)V
    return
Same:
    getstatic java/lang/System/out Ljava/io/PrintStream;
    iconst_1
    invokevirtual java/io/PrintStream/println(I)V
    return
.end method
