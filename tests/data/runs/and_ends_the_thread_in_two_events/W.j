.class public W
.super A
