.class public D
.super A

.method private m()I
    .limit stack 8
    .limit locals 8
    iconst_3
    ireturn
.end method
