.bytecode 51.0
.source Callback.java
.class Callback$Words
.super Callback

.method <init>()V
  .limit stack 1
  .limit locals 1
  .line 9
  aload_0  ; 0
  invokespecial   Callback/<init>()V  ; 1
  return  ; 2
.end method

.method protected call(I)Ljava/lang/String;
  .limit stack 2
  .limit locals 2
  .line 12
  iload_1  ; 0
  ifge            L6  ; 1
  .line 13
  new             Callback$Broken  ; 2
  dup  ; 3
  invokespecial   Callback$Broken/<init>()V  ; 4
  athrow  ; 5
L6:
  .line 15
  iload_1  ; 6
  ifne            L10  ; 7
  ldc             "none"  ; 8
  goto            L16  ; 9
L10:
  iload_1  ; 10
  iconst_1  ; 11
  if_icmpne       L15  ; 12
  ldc             "one"  ; 13
  goto            L16  ; 14
L15:
  ldc             "many"  ; 15
L16:
  areturn  ; 16
.end method

; 90 NoText(flags)
.method protected volatile call(I)Ljava/lang/Object;  ; synthetic
  .limit stack 2
  .limit locals 2
  .line 9
  aload_0  ; 0
  iload_1  ; 1
  invokevirtual   Callback$Words/call(I)Ljava/lang/String;  ; 2
  areturn  ; 3
.end method
