.interface public J
.super java/lang/Object
.implements K
