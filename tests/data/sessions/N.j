.class public N
.super java/lang/Object
.field public n LN;
