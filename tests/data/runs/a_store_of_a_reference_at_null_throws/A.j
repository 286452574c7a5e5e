.class public A
.super java/lang/Object

.field x I
