.class public A
.super java/lang/Object

.field static x I

.method static <clinit>()V
    .limit stack 8
    .limit locals 8
    new java/lang/Error
    dup
    invokespecial java/lang/Error/<init>()V
    athrow
.end method
