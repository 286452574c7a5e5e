.class public E
.super java/lang/Exception
.implements I
