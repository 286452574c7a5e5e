.bytecode 49.0
.class public Main
.super java/lang/Object

.method public static main([Ljava/lang/String;)V
  .limit stack 8
  .limit locals 8
  getstatic       java/lang/System/out Ljava/io/PrintStream;  ; 0
  iconst_2  ; 1
  iconst_3  ; 2
  iadd  ; 3
  invokevirtual   java/io/PrintStream/println(I)V  ; 4
  return  ; 5
.end method
