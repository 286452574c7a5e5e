.class public S
.super java/lang/Object

.field public static x I = 1
