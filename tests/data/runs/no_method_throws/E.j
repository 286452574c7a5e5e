.class public E
.super java/lang/Object
.implements I
