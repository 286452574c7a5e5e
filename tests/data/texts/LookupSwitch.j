; A switch over ints that lie far apart, the least and the largest among them.
.class public LookupSwitch
.super java/lang/Object

.method static name(I)Ljava/lang/String;
    .limit stack 1
    .limit locals 1
    iload_0
    lookupswitch
        -2147483648 : Least
        0 : Nothing
        1000 : Thousand
        0x7fffffff : Largest
        default : Other
Least:
    ldc "least"
    areturn
Nothing:
    ldc "nothing"
    areturn
Thousand:
    ldc "a thousand"
    areturn
Largest:
    ldc "largest"
    areturn
Other:
    ldc "something else"
    areturn
.end method

.method static print(I)V
    .limit stack 2
    .limit locals 1
    getstatic java/lang/System/out Ljava/io/PrintStream;
    iload_0
    invokestatic LookupSwitch/name(I)Ljava/lang/String;
    invokevirtual java/io/PrintStream/println(Ljava/lang/String;)V
    return
.end method

.method public static main([Ljava/lang/String;)V
    ldc -2147483648
    invokestatic LookupSwitch/print(I)V
    iconst_0
    invokestatic LookupSwitch/print(I)V
    sipush 1000
    invokestatic LookupSwitch/print(I)V
    ldc 2147483647
    invokestatic LookupSwitch/print(I)V
    sipush -1000
    invokestatic LookupSwitch/print(I)V
    return
.end method
