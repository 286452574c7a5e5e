.bytecode 49.0
.source Lines.java
; Line numbers, names of local variables and a source file: what a debugger reads.
.class public Lines
.super java/lang/Object

.method public static main([Ljava/lang/String;)V
    .limit stack 3
    .limit locals 2
    .var 0 is arguments [Ljava/lang/String; from Begin to End
    .var 1 is n I from Begin to End
Begin:
    .line 7
    bipush 6
    istore_1
    .line 8
    getstatic java/lang/System/out Ljava/io/PrintStream;
    iload_1
    .line 9
    bipush 7
    imul
    invokevirtual java/io/PrintStream/println(I)V
    .line 10
    return
End:
.end method
