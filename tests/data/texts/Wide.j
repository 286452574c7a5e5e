; Local variables past 255 and constants past a byte: the assembler writes wide by itself.
.class public Wide
.super java/lang/Object

.method public static main([Ljava/lang/String;)V
    .limit stack 5
    .limit locals 1000
    sipush 300
    istore 256
    iinc 256 1000
    iinc 256 -129
    iload 256
    i2l
    lstore 998
    aload_0
    astore 500
    aload 500
    arraylength
    istore 255
    iinc 255 127
    iinc 255 -128
    getstatic java/lang/System/out Ljava/io/PrintStream;
    lload 998
    iload 255
    i2l
    ladd
    invokevirtual java/io/PrintStream/println(J)V
    return
.end method
