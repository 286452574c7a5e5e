.bytecode 45.3
.class public Five
.super java/lang/Object

.method public static main([Ljava/lang/String;)V
  .limit stack 2
  .limit locals 1
  getstatic       java/lang/System/out Ljava/io/PrintStream;  ; 0
  iconst_5  ; 1
  invokevirtual   java/io/PrintStream/println(I)V  ; 2
  return  ; 3
.end method
