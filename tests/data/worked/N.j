.class public N
.super java/lang/Object
.field n LN;
