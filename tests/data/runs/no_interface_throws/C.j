.class public C
.super A
