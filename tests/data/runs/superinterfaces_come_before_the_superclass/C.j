.class public C
.super S
.implements J
