; A switch over neighbouring ints: the lengths of the English words for -1 to 4.
.class public TableSwitch
.super java/lang/Object

.method static letters(I)I
    .limit stack 1
    .limit locals 1
    iload_0
    tableswitch 0
        Zero
        Three
        Three
        Five
        default : Other
Zero:
    iconst_4
    ireturn
Three:
    iconst_3
    ireturn
Five:
    iconst_5
    ireturn
Other:
    iconst_m1
    ireturn
.end method

.method public static main([Ljava/lang/String;)V
    .limit stack 2
    .limit locals 2
    iconst_m1
    istore_1
Next:
    getstatic java/lang/System/out Ljava/io/PrintStream;
    iload_1
    invokestatic TableSwitch/letters(I)I
    invokevirtual java/io/PrintStream/println(I)V
    iinc 1 1
    iload_1
    iconst_4
    if_icmple Next
    return
.end method
