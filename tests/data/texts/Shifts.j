; The count of a shift: its low 5 bits for an int, its low 6 for a long (JVMS 6.5).
.class public Shifts
.super java/lang/Object

.method public static main([Ljava/lang/String;)V
    .limit stack 4
    getstatic java/lang/System/out Ljava/io/PrintStream;
    lconst_1
    bipush 65
    lshl
    invokevirtual java/io/PrintStream/println(J)V
    getstatic java/lang/System/out Ljava/io/PrintStream;
    lconst_1
    bipush 33
    lshl
    invokevirtual java/io/PrintStream/println(J)V
    getstatic java/lang/System/out Ljava/io/PrintStream;
    iconst_1
    bipush 33
    ishl
    invokevirtual java/io/PrintStream/println(I)V
    getstatic java/lang/System/out Ljava/io/PrintStream;
    bipush -16
    iconst_2
    ishr
    invokevirtual java/io/PrintStream/println(I)V
    getstatic java/lang/System/out Ljava/io/PrintStream;
    bipush -16
    bipush 28
    iushr
    invokevirtual java/io/PrintStream/println(I)V
    return
.end method
