; goto, goto_w, and branches on null and on equal references, forwards and backwards.
.class public Goto
.super java/lang/Object

.method public static main([Ljava/lang/String;)V
    .limit stack 2
    .limit locals 2
    goto_w Second
First:
    getstatic java/lang/System/out Ljava/io/PrintStream;
    ldc "first"
    invokevirtual java/io/PrintStream/println(Ljava/lang/String;)V
    goto Third
Second:
    aload_0
    ifnonnull Third
    goto_w First
Third:
    aload_0
    aload_0
    if_acmpne First
    aload_0
    aconst_null
    if_acmpeq First
    getstatic java/lang/System/out Ljava/io/PrintStream;
    ldc "third"
    invokevirtual java/io/PrintStream/println(Ljava/lang/String;)V
    return
.end method
