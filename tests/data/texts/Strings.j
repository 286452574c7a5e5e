; Strings: every escape, signs outside ASCII, a comment sign inside, and a text backwards.
.class public Strings
.super java/lang/Object

.method static backwards(Ljava/lang/String;)V
    .limit stack 3
    .limit locals 2
    aload_0
    invokevirtual java/lang/String/length()I
    istore_1
Letter:
    iload_1
    ifeq Done
    iinc 1 -1
    getstatic java/lang/System/out Ljava/io/PrintStream;
    aload_0
    iload_1
    invokevirtual java/lang/String/charAt(I)C
    invokevirtual java/io/PrintStream/print(C)V
    goto Letter
Done:
    getstatic java/lang/System/out Ljava/io/PrintStream;
    invokevirtual java/io/PrintStream/println()V
    return
.end method

.method public static main([Ljava/lang/String;)V
    .limit stack 2
    ldc "stressed"
    invokestatic Strings/backwards(Ljava/lang/String;)V
    getstatic java/lang/System/out Ljava/io/PrintStream;
    ldc "tab\tand \"quotes\" ; no comment \\ \u0041\u0042"
    invokevirtual java/io/PrintStream/println(Ljava/lang/String;)V
    getstatic java/lang/System/out Ljava/io/PrintStream;
    ldc "\u00e9\u20ac\ud83d\ude00"
    invokevirtual java/io/PrintStream/println(Ljava/lang/String;)V
    getstatic java/lang/System/out Ljava/io/PrintStream;
    ldc "one\ntwo"
    invokevirtual java/io/PrintStream/println(Ljava/lang/String;)V
    return
.end method
