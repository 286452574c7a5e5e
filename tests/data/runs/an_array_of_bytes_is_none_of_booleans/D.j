.class public D
.super C
