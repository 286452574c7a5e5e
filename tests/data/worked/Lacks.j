.class public Lacks
.super java/lang/Object
.implements I
