.class public C
.super java/lang/Object
.implements J
