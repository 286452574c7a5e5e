.bytecode 51.0
.source Callback.java
.class Callback$Words
.super Callback

.method <init>()V
  .limit stack 1
  .limit locals 1
  .line 9
  aload_0
  invokespecial   Callback/<init>()V
  return
.end method

.method protected call(I)Ljava/lang/String;
  .limit stack 2
  .limit locals 2
  .line 12
  iload_1
  ifge            L6
  .line 13
  new             Callback$Broken
  dup
  invokespecial   Callback$Broken/<init>()V
  athrow
L6:
  .line 15
  iload_1
  ifne            L10
  ldc             "none"
  goto            L16
L10:
  iload_1
  iconst_1
  if_icmpne       L15
  ldc             "one"
  goto            L16
L15:
  ldc             "many"
L16:
  areturn
.end method

; 90 NoText(flags)
.method protected volatile call(I)Ljava/lang/Object;
  .limit stack 2
  .limit locals 2
  .line 9
  aload_0
  iload_1
  invokevirtual   Callback$Words/call(I)Ljava/lang/String;
  areturn
.end method
