; The moves of the towers of Hanoi with three discs.
.class public Hanoi
.super java/lang/Object

.method static move(ICCC)V
    .limit stack 4
    .limit locals 4
    iload_0
    ifne Some
    return
Some:
    iload_0
    iconst_1
    isub
    iload_1
    iload_3
    iload_2
    invokestatic Hanoi/move(ICCC)V
    getstatic java/lang/System/out Ljava/io/PrintStream;
    dup
    iload_1
    invokevirtual java/io/PrintStream/print(C)V
    dup
    ldc " to "
    invokevirtual java/io/PrintStream/print(Ljava/lang/String;)V
    iload_3
    invokevirtual java/io/PrintStream/println(C)V
    iload_0
    iconst_1
    isub
    iload_2
    iload_1
    iload_3
    invokestatic Hanoi/move(ICCC)V
    return
.end method

.method public static main([Ljava/lang/String;)V
    .limit stack 4
    iconst_3
    bipush 65
    bipush 66
    bipush 67
    invokestatic Hanoi/move(ICCC)V
    return
.end method
