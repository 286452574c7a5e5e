; The classes that are named are not above Main: the search begins at each (JVMS 6.5 invokespecial).
; A real Java (OpenJDK 17) prints the same: jm asm of each text, then java -Xverify:none Main
.class public Main
.super java/lang/Object
.method public static main([Ljava/lang/String;)V
    .limit stack 8
    .limit locals 8
    getstatic java/lang/System/out Ljava/io/PrintStream;
    new B
    invokespecial A/m()I
    invokevirtual java/io/PrintStream/println(I)V
    getstatic java/lang/System/out Ljava/io/PrintStream;
    new D
    invokespecial D/m()I
    invokevirtual java/io/PrintStream/println(I)V
    return
.end method
