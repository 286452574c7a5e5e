.class public A
.super java/lang/Object
.implements I
