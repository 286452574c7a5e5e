; D names A, which is two up: the search begins at the direct superclass B (JVMS 6.5 invokespecial).
; A real Java (OpenJDK 17) prints the same: jm asm of each text, then java -Xverify:none Main
.class public Main
.super java/lang/Object
.method public static main([Ljava/lang/String;)V
    .limit stack 8
    .limit locals 8
    getstatic java/lang/System/out Ljava/io/PrintStream;
    new D
    invokevirtual D/up()I
    invokevirtual java/io/PrintStream/println(I)V
    return
.end method
