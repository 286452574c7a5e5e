; A list of three objects, of which the second is cut out of the variables.
.class public Main
.super java/lang/Object
.method public static main([Ljava/lang/String;)V
    .limit stack 8
    .limit locals 8
    new N
    astore_0
    new N
    astore_1
    aload_0
    aload_1
    putfield N/n LN;
    aload_1
    new N
    putfield N/n LN;
    aconst_null
    astore_1
    aload_0
    getfield N/n LN;
    getfield N/n LN;
    areturn
.end method
