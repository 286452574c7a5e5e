; What does it print? Only the stack is used: dup, dup_x1, dup_x2, swap, pop.
.class public StackPuzzle
.super java/lang/Object

.method public static main([Ljava/lang/String;)V
    .limit stack 8
    iconst_1
    iconst_2
    iconst_3            ; 1 2 3
    dup_x2              ; 3 1 2 3
    pop                 ; 3 1 2
    swap                ; 3 2 1
    dup_x1              ; 3 1 2 1
    iadd                ; 3 1 3
    imul                ; 3 3
    isub                ; 0
    dup                 ; 0 0
    iconst_5
    iadd                ; 0 5
    swap                ; 5 0
    pop                 ; 5
    getstatic java/lang/System/out Ljava/io/PrintStream;
    swap
    invokevirtual java/io/PrintStream/println(I)V
    return
.end method
