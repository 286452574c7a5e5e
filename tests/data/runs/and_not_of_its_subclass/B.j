.class public B
.super A
