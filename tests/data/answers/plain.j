.class public Main
.super java/lang/Object
.method public static main([Ljava/lang/String;)V
.limit stack 8
.limit locals 8
; here
L1:
nop
L2:
nop
L3:
nop
L4:
nop
L5:
nop
L6:
nop
L7:
nop
L8:
nop
L9:
nop
L10:
nop
L11:
nop
L12:
nop
L13:
nop
L14:
nop
L15:
nop
L16:
nop
L17:
nop
L18:
nop
L19:
nop
L20:
nop
L21:
nop
L22:
nop
L23:
nop
L24:
nop
L25:
nop
L26:
nop
L27:
nop
L28:
nop
L29:
nop
.end method
