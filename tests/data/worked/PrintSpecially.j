; The methods of java/io/PrintStream by invokespecial print (JVMS 6.5 invokespecial).
; A real Java (OpenJDK 17) prints the same: jm asm of the text, then java -Xverify:none Main
.class public Main
.super java/lang/Object
.method public static main([Ljava/lang/String;)V
    .limit stack 8
    .limit locals 8
    getstatic java/lang/System/out Ljava/io/PrintStream;
    iconst_5
    invokespecial java/io/PrintStream/print(I)V
    getstatic java/lang/System/out Ljava/io/PrintStream;
    invokespecial java/io/PrintStream/println()V
    getstatic java/lang/System/out Ljava/io/PrintStream;
    bipush 65
    invokespecial java/io/PrintStream/println(C)V
    getstatic java/lang/System/out Ljava/io/PrintStream;
    ldc "text"
    invokespecial java/io/PrintStream/println(Ljava/lang/String;)V
    getstatic java/lang/System/out Ljava/io/PrintStream;
    ldc2_w 5000000000
    invokespecial java/io/PrintStream/println(J)V
    aconst_null
    invokespecial java/io/PrintStream/println()V
    return
.end method
