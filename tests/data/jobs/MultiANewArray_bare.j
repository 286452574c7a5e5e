.bytecode 46.0
.source MultiANewArray.j
.class public examples/MultiANewArray
.super java/lang/Object

.method public <init>()V
  .limit stack 1
  .limit locals 1
  aload_0
  invokespecial   java/lang/Object/<init>()V
  return
.end method

.method public static main([Ljava/lang/String;)V
  .limit stack 2
  .limit locals 4
  iconst_2
  iconst_5
  multianewarray  [[Ljava/lang/String; 2
  astore_1
  return
.end method
