.bytecode 45.3
.class public Five
.super java/lang/Object

.method public static main([Ljava/lang/String;)V
  .limit stack 2
  .limit locals 1
  getstatic       java/lang/System/out Ljava/io/PrintStream;
  iconst_5
  invokevirtual   java/io/PrintStream/println(I)V
  return
.end method
