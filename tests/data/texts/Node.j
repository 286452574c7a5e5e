; A list of ints, made from its end and walked from its front.
.class public Node
.super java/lang/Object

.field value I
.field next LNode;

.method <init>(ILNode;)V
    .limit stack 2
    .limit locals 3
    aload_0
    invokespecial java/lang/Object/<init>()V
    aload_0
    iload_1
    putfield Node/value I
    aload_0
    aload_2
    putfield Node/next LNode;
    return
.end method

.method public static main([Ljava/lang/String;)V
    .limit stack 4
    .limit locals 3
    aconst_null
    astore_1
    iconst_0
    istore_2
Put:
    new Node
    dup
    iload_2
    aload_1
    invokespecial Node/<init>(ILNode;)V
    astore_1
    iinc 2 1
    iload_2
    iconst_5
    if_icmplt Put
Walk:
    aload_1
    ifnull Walked
    getstatic java/lang/System/out Ljava/io/PrintStream;
    aload_1
    getfield Node/value I
    invokevirtual java/io/PrintStream/println(I)V
    aload_1
    getfield Node/next LNode;
    astore_1
    goto Walk
Walked:
    return
.end method
