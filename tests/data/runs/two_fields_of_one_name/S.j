.class public S
.super Main

.field f B
