.interface public J
.super java/lang/Object
.implements I
